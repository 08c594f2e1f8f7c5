// A calculator: a row of lines, each an assignment or a sum, and each ended by a semicolon.

/* What a lexer finds and no quotes can spell:
   a number, and the name of a variable. */
%token NUMBER NAME

%start Lines

%%

// The first alternative is empty: a calculation may have no line.
Lines:
  | Lines Line ';'
  ;

Line:
    NAME '=' Sum
  | Sum
  ;

// Products bind tighter than sums, and both go from left to right.
Sum:
    Sum '+' Product
  | Sum '-' Product
  | Product
  ;

Product:
    Product '*' Factor
  | Product '/' Factor
  | Factor
  ;

Factor:
    '-' Factor
  | '(' Sum ')'
  | NUMBER
  | NAME
  ;
