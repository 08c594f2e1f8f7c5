// A Lisp's reader, and above it the few forms that its compiler knows.

%token Symbol Keyword          // foo   :foo
%token Fixnum Ratio Float      // 1     1/2     1.0e3
%token Str Char                // "s"   #\c

%token Lambda Define Let LetStar If Cond Else Set Begin Quote

%%

Program : Forms ;

Forms :
      | Forms Form
      ;

Form : Definition
     | Expression
     ;

Definition
  : '(' Define Symbol Expression ')'
  | '(' Define '(' Symbol Parameters ')' Body ')'
  ;

Body
  : Expression
  | Definition Body
  | Expression Body
  ;

Expression
  : Constant
  | Symbol
  | '(' Lambda Formals Body ')'
  | '(' If Expression Expression ')'
  | '(' If Expression Expression Expression ')'
  | '(' Set Symbol Expression ')'
  | '(' Begin Expressions ')'
  | '(' Let '(' Bindings ')' Body ')'
  | '(' Let Symbol '(' Bindings ')' Body ')'  /* a loop with a name */
  | '(' LetStar '(' Bindings ')' Body ')'
  | '(' Cond Clauses ')'
  | '(' Quote Datum ')'
  | "'" Datum
  | '`' Template
  | Application
  ;

Application : '(' Expression Arguments ')' ;

Arguments : | Arguments Expression | Arguments Keyword Expression ;

Expressions : Expression | Expressions Expression ;

Formals : Symbol | '(' Parameters ')' ;

Parameters : Required
           | Required '.' Symbol
           | Required "&rest" Symbol
           | Required "&optional" Optionals
           ;

Required : | Required Symbol ;

Optionals : Optional | Optionals Optional ;
Optional  : Symbol | '(' Symbol Expression ')' ;

Bindings : | Bindings '(' Symbol Expression ')' ;

Clauses : Clause
        | Clause Clauses
        | '(' Else Expressions ')'
        ;

Clause  : '(' Expression Expressions ')'
        | '(' Expression "=>" Expression ')'
        ;

Constant : Fixnum | Ratio | Float | Str | Char | Keyword | "#t" | "#f" ;

// ---------- data: everything behind a quote ----------

Datum : Constant
      | Name
      | '(' Data ')'
      | '(' Datum Data '.' Datum ')'
      | "#(" Data ')'
      | "'" Datum
      ;

Data : | Data Datum ;

// The compiler's words are plain symbols there.
Name : Symbol | Lambda | Define | Let | LetStar | If | Cond | Else | Set | Begin | Quote ;

// ---------- templates: data with holes ----------

Template : Constant
         | Name
         | '(' Templates ')'
         | ',' Expression
         | ",@" Expression
         ;

Templates : | Templates Template ;
