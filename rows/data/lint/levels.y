// Operators with levels. The last one is spelled in two ways.

%token NUMBER

%left '+' '-'
%left '*' '/'
%right "**"
%nonassoc NEGATIVE

%%

Sum:
    Sum '+' Sum
  | Sum '-' Sum
  | Sum '*' Sum
  | Sum '/' Sum
  | Sum '^' Sum
  | '-' Sum %prec NEGATIVE
  | NUMBER
  ;
