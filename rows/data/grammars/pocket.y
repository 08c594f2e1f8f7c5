/* POCKET, a small teaching language with procedures, records and loops.
   Semicolons stand between statements, never behind the last one. */

%token ident  number  real  text  character
%token 'program' 'begin' 'end' 'var' 'const' 'type' 'procedure' 'function'
%token 'if' 'then' 'else' 'while' 'do' 'repeat' 'until' 'for' 'to' 'downto' 'case' 'of' 'with'
%token 'array' 'record' 'set' 'nil' 'and' 'or' 'not' 'div' 'mod' 'in'
%token assign ":="

%start unit
%%

unit: program ident params ';' block '.' ;

params: | '(' names ')' ;
names: ident | names ',' ident ;

block: constants types variables routines begin statements end ;

constants: | const constant_list ;
constant_list: constant | constant_list constant ;
constant: ident '=' literal ';' ;
literal: number | real | text | character | ident | '-' number | '-' real | nil ;

types: | type type_list ;
type_list: ident '=' shape ';' | type_list ident '=' shape ';' ;

shape: ident
     | '(' names ')'
     | literal ".." literal
     | '^' ident
     | array '[' ranges ']' of shape
     | set of shape
     | record fields end
     ;
ranges: shape | ranges ',' shape ;
fields: | field | fields ';' field ;
field: names ':' shape ;

variables: | var variable_list ;
variable_list: names ':' shape ';' | variable_list names ':' shape ';' ;

routines: | routines routine ;
routine: procedure ident formals ';' block ';'
       | function ident formals ':' ident ';' block ';'
       | procedure ident formals ';' "forward" ';'
       ;
formals: | '(' formal_list ')' ;
formal_list: formal | formal_list ';' formal ;
formal: names ':' ident | var names ':' ident ;

/* Statements come in two sorts, so that an else has one owner: those whose
   every if has its else ("closed"), and the others ("open"). */

statements: statement | statements ';' statement ;
statement: closed | open ;

closed: plain
      | if condition then closed else closed
      | while condition do closed
      | for ident ":=" expression way expression do closed
      | with places do closed
      ;
open: if condition then statement
    | if condition then closed else open
    | while condition do open
    | for ident ":=" expression way expression do open
    | with places do open
    ;
way: to | downto ;

plain:
     | place assign expression
     | ident actuals
     | begin statements end
     | repeat statements until condition
     | case expression of branches end
     ;
actuals: | '(' expressions ')' ;
branches: branch | branches ';' branch ;
branch: | literals ':' statement | else statement ;
literals: literal | literals ',' literal ;

place: ident | place '[' expressions ']' | place '.' ident | place '^' ;
places: place | places ',' place ;

condition: expression ;
expressions: expression | expressions ',' expression ;
expression: simple | simple compare simple ;
compare: '=' | "<>" | '<' | "<=" | '>' | ">=" | in ;
simple: term | '-' term | simple '+' term | simple '-' term | simple or term ;
term: factor | term '*' factor | term '/' factor | term div factor | term mod factor | term and factor ;
factor: number | real | text | character | nil
      | place
      | ident '(' expressions ')'
      | '(' expression ')'
      | not factor
      | '[' ']' | '[' members ']'
      ;
members: member | members ',' member ;
member: expression | expression ".." expression ;
