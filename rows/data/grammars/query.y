/* Query language of the archive: select, insert, update, delete.
   Keywords are quoted here, in lower case; the lexer folds their case. */
%token Name             /* a column, a table, an alias */
%token String Integer Decimal
%token Param            /* ?1 or :name */
%token "<>" "<=" ">="
%start statements
%%
statements : statement | statements ';' statement ;

statement  : /* nothing */
           | query
           | "insert" "into" Name columns_opt source
           | "update" Name "set" assignments where_opt
           | "delete" "from" Name where_opt
           ;

/* ---------------------------------------------------------- queries */

query      : select
           | query "union" select
           | query "union" "all" select
           | query "except" select
           ;

select     : "select" distinct_opt items from_opt where_opt group_opt order_opt limit_opt
           | '(' query ')'
           ;

distinct_opt : | "distinct" | "all" ;

items      : '*' | item_list ;
item_list  : item | item_list ',' item ;
item       : expr
           | expr "as" Name
           | expr Name
           | Name '.' '*'
           ;

from_opt   : | "from" tables ;
tables     : table | tables ',' table ;
table      : source_name
           | table join table_end "on" condition
           | table join table_end "using" '(' names ')'
           | table "cross" "join" table_end
           ;
table_end  : source_name ;
source_name: Name | Name Name | Name "as" Name
           | '(' query ')' Name
           | '(' query ')' "as" Name
           ;
join       : "join" | "inner" "join"
           | side "join" | side "outer" "join"
           ;
side       : "left" | "right" | "full" ;

where_opt  : | "where" condition ;
group_opt  : | "group" "by" exprs having_opt ;
having_opt : | "having" condition ;
order_opt  : | "order" "by" sort_keys ;
sort_keys  : sort_key | sort_keys ',' sort_key ;
sort_key   : expr | expr "asc" | expr "desc" ;
limit_opt  : | "limit" expr | "limit" expr "offset" expr ;

/* ---------------------------------------------------------- changes */

columns_opt: | '(' names ')' ;
names      : Name | names ',' Name ;
source     : query | "values" rows | "default" "values" ;
rows       : row | rows ',' row ;
row        : '(' exprs ')' ;
assignments: Name '=' value | assignments ',' Name '=' value ;
value      : expr | "default" ;

/* ------------------------------------------- conditions, expressions */

condition  : conjunction | condition "or" conjunction ;
conjunction: predicate | conjunction "and" predicate ;
predicate  : "not" predicate
           | expr compare expr
           | expr not_opt "between" expr "and" expr
           | expr not_opt "in" '(' exprs ')'
           | expr not_opt "in" '(' query ')'
           | expr not_opt "like" expr
           | expr "is" not_opt "null"
           | "exists" '(' query ')'
           | '[' condition ']'      /* brackets, so that no parenthesis has two readings */
           ;
not_opt    : | "not" ;
compare    : '=' | "<>" | '<' | '>' | "<=" | ">=" ;

exprs      : expr | exprs ',' expr ;
expr       : term | expr '+' term | expr '-' term | expr "||" term ;
term       : factor | term '*' factor | term '/' factor ;
factor     : String | Integer | Decimal | Param | "null" | "true" | "false"
           | Name
           | Name '.' Name
           | Name '(' ')'
           | Name '(' exprs ')'
           | "count" '(' '*' ')'
           | '(' expr ')'
           | '-' factor
           | "case" whens else_opt "end"
           ;
whens      : when | whens when ;
when       : "when" condition "then" expr ;
else_opt   : | "else" expr ;
