/* The types of a functional language: what stands behind a colon. */
%token  Lower   /* a variable, or a field's name */
        Upper   /* a constructor */
        Label   /* ~x:   in front of an argument */
        "->" "=>" "::" "forall" "exists" "where"
        Nat Text /* literals, which are types here as well */

%start declarations

%%

declarations: declaration | declarations declaration ;

declaration : "type" head '=' scheme
            | "type" head                                    /* abstract */
            | "data" head '=' constructors deriving
            | "data" head "where" '{' signatures '}'
            | "class" context_opt head '{' signatures '}'
            | "alias" Upper ':' kind
            | value "::" scheme
            ;

value  : Lower | '(' operator ')' ;
operator: '+' | '-' | '*' | '/' | '<' | '>' | "==" | "++" | '|' | '&' ;

head   : Upper | head parameter ;
parameter
       : Lower
       | '(' Lower ':' kind ')'
       | '+' Lower | '-' Lower          /* may only grow, may only shrink */
       ;

kind   : kind_atom | kind_atom "->" kind ;
kind_atom
       : '*' | Upper | '(' kind ')' ;

constructors
       : constructor | constructors '|' constructor ;
constructor
       : Upper
       | constructor atom
       | Upper '{' fields '}'
       | '!' constructor                /* evaluated at once */
       ;
deriving
       : | "deriving" Upper | "deriving" '(' uppers ')' ;
uppers : Upper | uppers ',' Upper ;

signatures
       : | signature | signatures ';' | signatures ';' signature ;
signature
       : value "::" scheme | Upper "::" scheme ;

/* -- schemes: forall a (b: Kind). (Show a, Eq b) => a -> b -- */

scheme : context_opt type
       | "forall" parameters '.' context_opt type
       | "exists" parameters '.' context_opt type
       ;
parameters
       : parameter | parameters parameter ;
context_opt
       : | context "=>" ;
context: constraint | '[' constraints ']' ;
constraints
       : constraint | constraints ',' constraint ;
constraint
       : Upper atom | Upper atom atom | atom '~' atom ;

/* -- types: functions are right-associative, application binds tightest -- */

type   : sum
       | sum "->" type
       | Label sum "->" type
       | '?' Label sum "->" type
       | sum '-' '{' effects '}' "->" type
       ;
effects: | row ;
sum    : product | sum '+' product ;
product: application | product '*' application ;
application
       : atom | application atom ;

atom   : Lower | Upper | path | Nat | Text
       | '(' ')'
       | '(' scheme ')'
       | '(' type ',' types ')'
       | '[' type ']'
       | '[' type ';' Nat ']'
       | '{' fields '}'
       | '{' fields '|' Lower '}'       /* open records */
       | '<' row '>'
       | '<' row '|' Lower '>'          /* open variants */
       | '_'
       ;
path   : Upper '.' Upper | path '.' Upper ;
types  : type | types ',' type ;
fields : | field | fields ',' | fields ',' field ;
field  : Lower ':' scheme | "mut" Lower ':' scheme ;
row    : Upper | Upper ':' type | row ',' Upper | row ',' Upper ':' type ;
