/* Queries and changes of a small database. The file has mistakes, which cfglint reports. */
%{
#include "query.h"

/* A brace in a comment, as { here, or in a string isn't counted. */
#define LIST_OF(x) list_begin(x)
%}

%define api.prefix {query_}
%define api.value.type {struct value}
%initial-action { @$.first_line = 1; };

%token SELECT FROM WHERE GROUP BY ORDER HAVING LIMIT INSERT INTO VALUES DELETE
%token NAME STRING NUMBER
%token LESS_EQUAL "<=" MORE_EQUAL ">=" NOT_EQUAL "<>"
%token AS IS NULL_WORD "null" DISTINCT

%left OR
%left AND
%precedence NOT
%nonassoc '=' '<' '>' "<=" ">=" "<>"
%left '+' '-'
%left '*' '/' '%'
%precedence SIGN
%right '^'

%%

statements: statement ';' | statements statement ';' ;

statement
    : select                                   { answer(&$1); }
    | INSERT INTO NAME '(' names ')' VALUES '(' values ')'
          { insert(&$3, &$5, &$9); }
    | DELETE FROM NAME where                   { delete(&$3, &$4); }
    | error                                    { yyerrok; }
    ;

select
    : SELECT distinct columns FROM tables where grouping ordering
          { $$ = select_node(&$3, &$5, &$6); if ($2.is_set) { unique(&$$); } }
    ;

distinct: %empty { $$.is_set = 0; } | DISTINCT { $$.is_set = 1; } ;

columns: '*' { $$ = all_columns('*'); } | values ;

tables: table | tables ',' table    { $$ = append(&$1, &$3); } ;

table: NAME alias                   { $$ = table_node(&$1, &$2); }
    | '(' select ')' AS NAME        { $$ = table_node(&$2, &$5); }
    ;

alias: %empty | AS NAME             { $$ = $2; }
    | alias                         { $$ = $1; /* this was meant to be NAME */ }
    ;

where: %empty { $$ = true_node(); } | WHERE value { $$ = $2; } ;

grouping: %empty | GROUP BY names having ;

having: %empty | HAVING value ;

ordering: %empty | ORDER { begin_order('\'', "\"{"); } BY names ;

names: NAME { $$ = LIST_OF(&$1); } | names ',' NAME { $$ = append(&$1, &$3); } ;

values: value { $$ = LIST_OF(&$1); } | values ',' value { $$ = append(&$1, &$3); } ;

value
    : value OR value | value AND value | NOT value
    | value '=' value | value '<' value | value '>' value
    | value "<=" value | value ">=" value | value "<>" value
    | value '+' value | value '-' value | value '*' value | value '/' value | value '%' value
    | value '^' value               { $$ = power(&$1, &$3); }
    | '-' value %prec SIGN          { $$ = negated(&$2); }
    | '(' value ')'                 { $$ = $2; }
    | NAME '(' values ')'           { $$ = call(&$1, &$3); }
    | NAME | STRING | NUMBER | "null"
    ;

comparison: '=' | '<' | '>' ;
