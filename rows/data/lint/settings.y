// Settings of an editor: sections, each with keys and their values.

%token IDENTIFIER STRING NUMBER COLOUR

%start Settings

%%

Settings: | Settings Section ;

Section: '[' IDENTIFIER ']' Entries ;

Entries: | Entries Entry ;

Entry: IDENTIFIER '=' Value ;

Value:
    STRING
  | NUMBER
  | "true"
  | "false"
  | '[' Items ']'
  ;

Items: Value | Items ',' Value ;

// Colours were values of their own once.
Colour:
    COLOUR
  | '#' NUMBER
  ;
