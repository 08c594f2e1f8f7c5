%token IDENT HASH STRING NUMBER DIMENSION PERCENT URL // words
%token FUNCTION                                       // a name with its '('
%token WS                                             // blanks that count
%token AT_MEDIA AT_IMPORT AT_FONT_FACE AT_KEYFRAMES
%%

sheet : imports items ;

imports : | imports AT_IMPORT target media_opt ';' ;
target  : STRING | URL ;
media_opt : | media_list ;

items : | items item ;
item  : rule
      | AT_MEDIA media_list '{' rules '}'
      | AT_FONT_FACE block
      | AT_KEYFRAMES IDENT '{' frames '}'
      ;
rules : | rules rule ;

// screen and (min-width: 40em), print
media_list : media | media_list ',' media ;
media      : medium conditions
           | condition conditions
           ;
medium     : IDENT | "not" IDENT | "only" IDENT ;
conditions : | conditions "and" condition ;
condition  : '(' IDENT ')'
           | '(' IDENT ':' value ')'
           | '(' value '<' IDENT ')'
           | '(' value '<' IDENT '<' value ')'
           ;

frames : | frames frame ;
frame  : stops block ;
stops  : stop | stops ',' stop ;
stop   : "from" | "to" | PERCENT ;

// ======================================================= selectors
rule      : selectors block ;
selectors : selector | selectors ',' selector ;
selector  : compound
          | selector WS compound
          | selector '>' compound
          | selector '+' compound
          | selector '~' compound
          ;
compound  : element | element parts | parts ;
element   : IDENT | '*' ;
parts     : part | parts part ;
part      : HASH
          | '.' IDENT
          | '[' attribute ']'
          | ':' pseudo
          | '::' IDENT
          ;
attribute : IDENT | IDENT match IDENT | IDENT match STRING ;
match     : '=' | "~=" | "|=" | "^=" | "$=" | "*=" ;
pseudo    : IDENT
          | FUNCTION nth ')'
          | ":not(" selectors ')'
          ;
nth       : "odd" | "even" | NUMBER | DIMENSION | DIMENSION '+' NUMBER ;

// ==================================================== declarations
block        : '{' declarations '}' ;
declarations : declaration_opt | declarations ';' declaration_opt ;
declaration_opt : | declaration ;
declaration  : property ':' values priority ;
property     : IDENT | "--" IDENT ;
priority     : | '!' "important" ;

values : group | values ',' group ;
group  : value | group value | group '/' value ;
value  : IDENT | STRING | URL | HASH | measure
       | FUNCTION ')'
       | FUNCTION values ')'
       | "calc(" sum ')'
       | "var(" "--" IDENT ')'
       ;
measure : unsigned | '-' unsigned | '+' unsigned ;
unsigned: NUMBER | DIMENSION | PERCENT ;
sum     : product | sum '+' product | sum '-' product ;
product : operand | product '*' operand | product '/' operand ;
operand : measure | '(' sum ')' ;
