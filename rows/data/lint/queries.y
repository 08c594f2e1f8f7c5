// Queries over a table: what is picked, from where, and by which test.

%token NAME NUMBER TEXT

%nonassoc '<' '=' '>'
%left '+'

%%

Query: "pick" Names "from" NAME Test ;

Names:
    NAME
  | '*'
  | Names ',' NAME
  ;

Test: | "where" Comparison ;

Comparison:
    Value '<' Value
  | Value '=' Value
  | Value '>' Value
  | Value '<' Value
  ;

Value:
    NAME
  | NUMBER
  | TEXT
  | '*'
  | Value '+' Value
  | NAME
  ;
