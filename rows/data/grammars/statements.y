/* A small language of statements. It has no %start line, so the first rule
   is the start. */

%token IDENTIFIER         // the name of a variable or of a function
%token NUMBER TEXT        // constants

%%

Program: Statements ;

Statements: | Statements Statement ;

Statement:
    "let" IDENTIFIER '=' Expression ';'
  | IDENTIFIER '=' Expression ';'
  | Call ';'
  | "while" Expression Block
  | "if" Expression Block Otherwise
  | "return" Result ';'
  ;

Block: '{' Statements '}' ;

// An else without braces takes another if alone.
Otherwise:
  | "else" Block
  | "else" "if" Expression Block Otherwise
  ;

Result: | Expression ;

Expression:
    Expression "==" Operand
  | Expression '<' Operand
  | Expression '+' Operand
  | Operand
  ;

Operand:
    NUMBER
  | TEXT
  | IDENTIFIER
  | Call
  | '(' Expression ')'
  ;

Call: IDENTIFIER '(' Arguments ')' ;

Arguments: | Expressions ;

Expressions: Expression | Expressions ',' Expression ;

// A rule may come again: these alternatives go on with its list.
Operand: "true" | "false" ;
