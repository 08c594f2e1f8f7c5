// Reports: a title, and tables and notes behind it.

%token TITLE WORD NUMBER

%%

Report: TITLE Blocks ;

Blocks:
  | Blocks Block
  ;

Block:
    "note" Words ';'
  | "table" Rows ';'
  | "picture" Picture ';'
  | "picture" Picture "of" Words ';'
  ;

Words:
    WORD
  | Words WORD
  ;

Rows:
    Row
  | Rows '/' Row
  ;

Row:
    NUMBER
  | Row ',' NUMBER
  ;

// A frame holds pictures, and there is none without a frame.
Picture: '[' Frame ']' ;

Frame: Picture | Frame ',' Picture ;
