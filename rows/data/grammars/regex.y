%token CHAR DIGIT
%token ANCHOR // \b, \B, \A, \z
%token CLASS // \d, \w, \s and their opposites
%token PROPERTY // the name in \p{..}
%start regex
%%
// Regular expressions. Characters that mean something are quoted below, all
// others come as CHAR; an escaped character is a CHAR too. Digits have a token
// of their own, for counts are made of them.
//
// Note: in a set nearly every sign is a plain character, hence the long rule
// set_char. The lexer has no modes.

regex: alternatives ;

alternatives: sequence | alternatives '|' sequence ;

sequence: | sequence piece ;

piece: atom | atom times | atom times '?' | atom times '+' ;

times: '*' | '+' | '?' | '{' number '}' | '{' number ',' '}' | '{' number ',' number '}' | '{' ',' number '}' ;

number: DIGIT | number DIGIT ;

atom: CHAR | DIGIT | '.' | '^' | '$' | ANCHOR | class | '-' | ',' | ':' | '=' | '!' | '<' | '>' | '&'
    | '(' alternatives ')'
    | '(' '?' ':' alternatives ')'
    | '(' '?' flags ':' alternatives ')'
    | '(' '?' flags ')'
    | '(' '?' 'P' '<' group_name '>' alternatives ')'
    | '(' '?' '=' alternatives ')'    // looks ahead
    | '(' '?' '!' alternatives ')'
    | '(' '?' '<' '=' alternatives ')'  // looks behind
    | '(' '?' '<' '!' alternatives ')'
    | '[' set ']'
    | '[' '^' set ']'
    ;

class: CLASS | "\p" '{' PROPERTY '}' | "\P" '{' PROPERTY '}' ;

flags: on | on '-' off | '-' off ;
on: flag | on flag ;
off: flag | off flag ;
flag: 'i' | 'm' | 's' | 'x' | 'u' ;

group_name: CHAR | group_name CHAR | group_name DIGIT ;

// ---- sets: [a-z&&[^aeiou]] ----

set: members | set "&&" members | set "--" members | set "~~" members ;

// A ']' at once is a member, and so is a '-' at either end.
members: first_member rest | first_member rest '-' ;
first_member: ']' | '-' | member ;
rest: | rest member ;
member: set_char | set_char '-' set_char | class | '[' set ']' | '[' '^' set ']' | "[:" names ":]" ;
names: CHAR | names CHAR ;
set_char: CHAR | DIGIT | '.' | '$' | '(' | ')' | '*' | '+' | '?' | '{' | '}' | '|' | ',' | ':' | '=' | '!'
        | '<' | '>' ;
