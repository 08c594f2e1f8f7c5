// Expressions of a calculator, in which the brackets of a factor were forgotten.

%token NUMBER NAME

%%

Expression:
    Expression '+' Term
  | Expression '-' Term
  | Term
  ;

Term:
    Term '*' Factor
  | Term '/' Factor
  | Factor
  ;

Factor:
    '-' Factor
  | Expression
  | NUMBER
  | NAME
  ;
