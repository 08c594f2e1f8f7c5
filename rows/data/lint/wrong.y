%token NAME
%start Lines
%left '+'
%left '-' '+'
%start Line
%epp NAME "name"
%epp '+' "plus"
%epp NAME "a name"

%%

Lines: | Lines Line ';' ;

Line: NAME '=' Sum
  | Sums
