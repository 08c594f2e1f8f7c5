// A JSON text: one value, of which objects and arrays hold others.

%start Value

%token STRING NUMBER      // a string with its quotes; a number with its sign

%%

Value:
    Object
  | Array
  | STRING
  | NUMBER
  | "true"
  | "false"
  | "null"
  ;

Object:
    '{' '}'
  | '{' Members '}'
  ;

Members:
    Member
  | Members ',' Member
  ;

Member: STRING ':' Value ;

Array:
    '[' ']'
  | '[' Values ']'
  ;

Values:
    Value
  | Values ',' Value
  ;
