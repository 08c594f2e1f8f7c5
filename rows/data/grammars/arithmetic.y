/*
 * Arithmetic and logic of a pocket calculator's "expert mode".
 *
 * Every level of binding strength has a rule of its own, from the loosest
 * (the conditional) to the tightest (a literal).  No precedences are
 * declared; the layers of rules do all of that work.
 */

%token INTEGER REAL          /* 12, 0x1f  and  1.5, 2e-3 */
%token IDENT                 /* names of constants and functions */
%token SHL SHR               /* << and >> */
%start Input

%%

Input
    : Conditional
    | Input ',' Conditional
    ;

/* a ? b : c groups to the right */
Conditional
    : Disjunction
    | Disjunction '?' Conditional ':' Conditional
    ;

Disjunction
    : Conjunction
    | Disjunction "||" Conjunction
    | Disjunction "xor" Conjunction
    ;

Conjunction
    : Negation
    | Conjunction "&&" Negation
    ;

Negation
    : Comparison
    | "not" Negation
    ;

/* Comparisons don't chain: a < b < c is refused. */
Comparison
    : BitSum
    | BitSum Relation BitSum
    ;

Relation
    : '<' | '>' | "<=" | ">=" | "==" | "!="
    ;

BitSum
    : BitProduct
    | BitSum '|' BitProduct
    ;

BitProduct
    : Shift
    | BitProduct '&' Shift
    ;

Shift
    : Sum
    | Shift SHL Sum
    | Shift SHR Sum
    ;

Sum
    : Product
    | Sum '+' Product
    | Sum '-' Product
    ;

Product
    : Signed
    | Product '*' Signed
    | Product '/' Signed
    | Product '%' Signed
    | Product "mod" Signed
    ;

Signed
    : Power
    | '-' Signed
    | '+' Signed
    | '~' Signed
    ;

/* Powers group to the right and bind tighter than a sign on their left:
   -2 ^ 2 is -(2 ^ 2), but 2 ^ -2 is fine as well. */
Power
    : Postfix
    | Postfix '^' Signed
    ;

Postfix
    : Atom
    | Postfix '!'
    ;

Atom
    : INTEGER
    | REAL
    | IDENT
    | IDENT '(' ')'
    | IDENT '(' Arguments ')'
    | '(' Conditional ')'
    | '|' Sum '|'                   /* the absolute value */
    ;

Arguments
    : Conditional
    | Arguments ',' Conditional
    ;
