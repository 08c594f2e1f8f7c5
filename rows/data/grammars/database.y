// SQL as a small server of tables takes it: definitions, queries with
// joins, grouping, windows and common tables, changes, transactions
// and rights.
//
// Keywords are tokens without quotes; the scanner finds them in any
// case. Most keywords that no rule of the standard reserves can be
// names, see unreserved_keyword.

%start script

%token NAME QUOTED_NAME STRING NATIONAL_STRING BIT_STRING
%token INTEGER DECIMAL PARAMETER

%token ADD ALL ALTER AND ANALYZE ANY AS ASC
%token BEGIN BETWEEN BIGINT BOOLEAN BOTH BY
%token CASCADE CASE CAST CHAR CHECK COALESCE COLLATE COLUMN COMMIT
       COMMITTED CONSTRAINT COUNT CREATE CROSS CURRENT CURRENT_DATE
       CURRENT_TIME CURRENT_TIMESTAMP CURRENT_USER
%token DATABASE DATE DAY DEFAULT DELETE DESC DISTINCT DO DOUBLE DROP
%token ELSE END ESCAPE EXCEPT EXCLUDE EXISTS EXPLAIN EXTRACT
%token FALSE FETCH FILTER FIRST FLOAT FOLLOWING FOR FOREIGN FROM FULL
%token GRANT GROUP GROUPS
%token HAVING HOUR
%token IF ILIKE IN INDEX INNER INSERT INT INTERSECT INTERVAL INTO IS
       ISOLATION
%token JOIN
%token KEY
%token LAST LATERAL LEADING LEFT LEVEL LIKE LIMIT LOCK
%token MATERIALIZED MINUTE MONTH
%token NATURAL NEXT NO NOT NOTHING NULL NULLIF NULLS NUMERIC
%token OF OFFSET ON ONLY OPTION OR ORDER OTHERS OUTER OVER OVERLAPS
%token PARTITION POSITION PRECEDING PRECISION PRIMARY PRIVILEGES PUBLIC
%token RANGE READ REAL RECURSIVE REFERENCES RELEASE RENAME REPEATABLE
       REPLACE RESTRICT RETURNING REVOKE RIGHT ROLLBACK ROW ROWS
%token SAVEPOINT SECOND SELECT SERIALIZABLE SET SHARE SIMILAR SMALLINT
       SOME START SUBSTRING
%token TABLE TEMPORARY TEXT THEN TIES TIME TIMESTAMP TO TRAILING
       TRANSACTION TRIM TRUE TRUNCATE
%token UNBOUNDED UNCOMMITTED UNION UNIQUE UNKNOWN UPDATE USING
%token VALUES VARCHAR VARYING VIEW
%token WHEN WHERE WINDOW WITH WITHOUT WORK WRITE
%token YEAR
%token ZONE

/* From the loosest to the tightest. */
%left UNION EXCEPT
%left INTERSECT
%left OR
%left AND
%right NOT
%nonassoc IS
%nonassoc '<' '>' '=' '<=' '>=' '<>' '!='
%nonassoc BETWEEN IN LIKE ILIKE SIMILAR OVERLAPS
%nonassoc ESCAPE
%left POSTFIX
%left '||' '->' '->>'
%left '+' '-'
%left '*' '/' '%'
%left '^'
%left AT
%left COLLATE_OPERATOR
%right SIGN
%left '[' ']'
%left '(' ')'
%left '::'
%left '.'
// Joins bind to the left, and so that ON goes with the nearest one.
%left JOIN CROSS LEFT FULL RIGHT INNER NATURAL

%epp NAME "a name"
%epp QUOTED_NAME 'a name in "quotes"'
%epp STRING "a string"
%epp INTEGER "a number"
%epp '<>' "<> (not equal)"

%avoid_insert NAME QUOTED_NAME STRING INTEGER DECIMAL PARAMETER

%token AT COLLATE_OPERATOR

%%

script
    : statements
    | statements statement
    ;

statements
    : /* nothing */
    | statements statement ';'
    | statements ';'
    ;

statement
    : explained_statement
    | EXPLAIN explained_statement
    | EXPLAIN ANALYZE explained_statement
    | create_table
    | create_table_as
    | create_view
    | create_index
    | create_database
    | alter_table
    | drop_statement
    | truncate_statement
    | transaction_statement
    | lock_statement
    | grant_statement
    | revoke_statement
    | set_statement
    ;

explained_statement
    : query
    | insert_statement
    | update_statement
    | delete_statement
    ;

// ---------------------------------------------------------------- names

name
    : NAME
    | QUOTED_NAME
    | unreserved_keyword
    ;

unreserved_keyword
    : CASCADE
    | COMMITTED
    | DAY
    | EXCLUDE
    | EXPLAIN
    | FILTER
    | FIRST
    | FOLLOWING
    | GROUPS
    | HOUR
    | ISOLATION
    | KEY
    | LAST
    | LEVEL
    | LOCK
    | MATERIALIZED
    | MINUTE
    | MONTH
    | NEXT
    | NO
    | NOTHING
    | NULLS
    | OF
    | OPTION
    | OTHERS
    | OVER
    | PARTITION
    | PRECEDING
    | PRIVILEGES
    | RANGE
    | READ
    | RECURSIVE
    | RELEASE
    | RENAME
    | REPEATABLE
    | REPLACE
    | RESTRICT
    | ROWS
    | SAVEPOINT
    | SECOND
    | SERIALIZABLE
    | SHARE
    | START
    | TEMPORARY
    | TIES
    | TRANSACTION
    | TRUNCATE
    | UNBOUNDED
    | UNCOMMITTED
    | VARYING
    | VIEW
    | WITHOUT
    | WORK
    | WRITE
    | YEAR
    | ZONE
    ;

qualified_name
    : name
    | name '.' name
    | name '.' name '.' name
    ;

qualified_names
    : qualified_name
    | qualified_names ',' qualified_name
    ;

column_names
    : name
    | column_names ',' name
    ;

column_list
    : '(' column_names ')'
    ;

optional_column_list
    : %empty
    | column_list
    ;

// ---------------------------------------------------------------- types

data_type
    : simple_type
    | simple_type array_bounds
    ;

array_bounds
    : '[' ']'
    | '[' INTEGER ']'
    | array_bounds '[' ']'
    | array_bounds '[' INTEGER ']'
    ;

simple_type
    : numeric_type
    | character_type
    | time_type
    | interval_type
    | BOOLEAN
    | qualified_name
    ;

numeric_type
    : SMALLINT
    | INT
    | BIGINT
    | REAL
    | FLOAT
    | FLOAT '(' INTEGER ')'
    | DOUBLE PRECISION
    | NUMERIC
    | NUMERIC '(' INTEGER ')'
    | NUMERIC '(' INTEGER ',' INTEGER ')'
    ;

character_type
    : TEXT
    | CHAR
    | CHAR '(' INTEGER ')'
    | CHAR VARYING
    | CHAR VARYING '(' INTEGER ')'
    | VARCHAR
    | VARCHAR '(' INTEGER ')'
    ;

time_type
    : DATE
    | TIME optional_digits optional_zone
    | TIMESTAMP optional_digits optional_zone
    ;

optional_digits
    : %empty
    | '(' INTEGER ')'
    ;

optional_zone
    : %empty
    | WITH TIME ZONE
    | WITHOUT TIME ZONE
    ;

interval_type
    : INTERVAL
    | INTERVAL interval_field
    | INTERVAL interval_field TO interval_field
    ;

interval_field
    : YEAR
    | MONTH
    | DAY
    | HOUR
    | MINUTE
    | SECOND
    ;

// ---------------------------------------------------------- definitions

create_table
    : CREATE optional_temporary TABLE optional_if_not_exists qualified_name '(' table_elements ')'
    | CREATE optional_temporary TABLE optional_if_not_exists qualified_name '(' ')'
    ;

create_table_as
    : CREATE optional_temporary TABLE optional_if_not_exists qualified_name optional_column_list AS query
    ;

optional_temporary
    : %empty
    | TEMPORARY
    ;

optional_if_not_exists
    : %empty
    | IF NOT EXISTS
    ;

optional_if_exists
    : %empty
    | IF EXISTS
    ;

table_elements
    : table_element
    | table_elements ',' table_element
    ;

table_element
    : column_definition
    | table_constraint
    | LIKE qualified_name
    ;

column_definition
    : name data_type column_constraints
    ;

column_constraints
    : %empty
    | column_constraints column_constraint
    | column_constraints CONSTRAINT name column_constraint
    | column_constraints COLLATE qualified_name
    ;

column_constraint
    : NOT NULL
    | NULL
    | UNIQUE
    | PRIMARY KEY
    | DEFAULT operand
    | CHECK '(' condition ')'
    | REFERENCES qualified_name optional_column_list referential_actions
    ;

table_constraint
    : constraint_body
    | CONSTRAINT name constraint_body
    ;

constraint_body
    : UNIQUE column_list
    | PRIMARY KEY column_list
    | CHECK '(' condition ')'
    | FOREIGN KEY column_list REFERENCES qualified_name optional_column_list referential_actions
    ;

referential_actions
    : %empty
    | referential_actions ON DELETE referential_action
    | referential_actions ON UPDATE referential_action
    ;

referential_action
    : NO
    | RESTRICT
    | CASCADE
    | SET NULL
    | SET DEFAULT
    ;

create_view
    : CREATE optional_or_replace VIEW qualified_name optional_column_list AS query view_check
    | CREATE MATERIALIZED VIEW optional_if_not_exists qualified_name optional_column_list AS query
    ;

optional_or_replace
    : %empty
    | OR REPLACE
    ;

view_check
    : %empty
    | WITH CHECK OPTION
    ;

create_index
    : CREATE INDEX optional_if_not_exists name ON qualified_name '(' index_columns ')' optional_where
    | CREATE UNIQUE INDEX optional_if_not_exists name ON qualified_name '(' index_columns ')' optional_where
    ;

index_columns
    : index_column
    | index_columns ',' index_column
    ;

index_column
    : name direction nulls_order
    | '(' expression ')' direction nulls_order
    ;

create_database
    : CREATE DATABASE name
    | CREATE DATABASE IF NOT EXISTS name
    ;

alter_table
    : ALTER TABLE optional_if_exists qualified_name alterations
    | ALTER TABLE optional_if_exists qualified_name RENAME TO name
    | ALTER TABLE optional_if_exists qualified_name RENAME optional_column name TO name
    ;

alterations
    : alteration
    | alterations ',' alteration
    ;

alteration
    : ADD optional_column column_definition
    | ADD table_constraint
    | DROP optional_column name drop_behaviour
    | DROP CONSTRAINT name drop_behaviour
    | ALTER optional_column name SET DEFAULT operand
    | ALTER optional_column name DROP DEFAULT
    | ALTER optional_column name SET NOT NULL
    | ALTER optional_column name DROP NOT NULL
    | ALTER optional_column name SET data_type
    ;

optional_column
    : %empty
    | COLUMN
    ;

drop_statement
    : DROP drop_object optional_if_exists qualified_names drop_behaviour
    ;

drop_object
    : TABLE
    | VIEW
    | MATERIALIZED VIEW
    | INDEX
    | DATABASE
    ;

drop_behaviour
    : %empty
    | CASCADE
    | RESTRICT
    ;

truncate_statement
    : TRUNCATE qualified_names drop_behaviour
    | TRUNCATE TABLE qualified_names drop_behaviour
    ;

// -------------------------------------------------------------- queries

query
    : query_expression order_clause limit_clauses locking_clause
    | with_clause query_expression order_clause limit_clauses locking_clause
    ;

with_clause
    : WITH common_tables
    | WITH RECURSIVE common_tables
    ;

common_tables
    : common_table
    | common_tables ',' common_table
    ;

common_table
    : name optional_column_list AS optional_materialized '(' explained_statement ')'
    ;

optional_materialized
    : %empty
    | MATERIALIZED
    | NOT MATERIALIZED
    ;

query_expression
    : query_term
    | query_expression UNION set_quantifier query_expression
    | query_expression EXCEPT set_quantifier query_expression
    | query_expression INTERSECT set_quantifier query_expression
    ;

query_term
    : select_core
    | values_clause
    | TABLE qualified_name
    | '(' query ')'
    ;

set_quantifier
    : %empty
    | ALL
    | DISTINCT
    ;

select_core
    : SELECT select_quantifier select_items from_clause optional_where group_clause having_clause window_clause
    ;

select_quantifier
    : %empty
    | ALL
    | DISTINCT
    | DISTINCT ON '(' expressions ')'
    ;

select_items
    : select_item
    | select_items ',' select_item
    ;

select_item
    : '*'
    | name '.' '*'
    | name '.' name '.' '*'
    | expression
    | expression NAME
    | expression QUOTED_NAME
    | expression AS name
    ;

from_clause
    : %empty
    | FROM table_references
    ;

table_references
    : table_reference
    | table_references ',' table_reference
    ;

table_reference
    : table_primary
    | joined_table
    ;

table_primary
    : qualified_name correlation
    | ONLY qualified_name correlation
    | '(' query ')' correlation
    | LATERAL '(' query ')' correlation
    | function_call correlation
    | LATERAL function_call correlation
    | '(' joined_table ')'
    ;

correlation
    : %empty
    | AS name optional_column_list
    | NAME optional_column_list
    | QUOTED_NAME optional_column_list
    ;

joined_table
    : table_reference CROSS JOIN table_primary
    | table_reference JOIN table_reference join_condition
    | table_reference join_type JOIN table_reference join_condition
    | table_reference NATURAL JOIN table_primary
    | table_reference NATURAL join_type JOIN table_primary
    ;

join_type
    : INNER
    | LEFT optional_outer
    | RIGHT optional_outer
    | FULL optional_outer
    ;

optional_outer
    : %empty
    | OUTER
    ;

join_condition
    : ON condition
    | USING column_list
    ;

optional_where
    : %empty
    | WHERE condition
    ;

group_clause
    : %empty
    | GROUP BY grouping_elements
    ;

grouping_elements
    : grouping_element
    | grouping_elements ',' grouping_element
    ;

grouping_element
    : expression
    | '(' ')'
    ;

having_clause
    : %empty
    | HAVING condition
    ;

window_clause
    : %empty
    | WINDOW window_definitions
    ;

window_definitions
    : name AS '(' window_specification ')'
    | window_definitions ',' name AS '(' window_specification ')'
    ;

order_clause
    : %empty
    | ORDER BY sort_items
    ;

sort_items
    : sort_item
    | sort_items ',' sort_item
    ;

sort_item
    : expression direction nulls_order
    ;

direction
    : %empty
    | ASC
    | DESC
    ;

nulls_order
    : %empty
    | NULLS FIRST
    | NULLS LAST
    ;

limit_clauses
    : %empty
    | limit_clause
    | offset_clause
    | limit_clause offset_clause
    | offset_clause limit_clause
    ;

limit_clause
    : LIMIT operand
    | LIMIT ALL
    | FETCH first_or_next ROW ONLY
    | FETCH first_or_next operand row_or_rows ONLY
    | FETCH first_or_next operand row_or_rows WITH TIES
    ;

offset_clause
    : OFFSET operand
    | OFFSET operand row_or_rows
    ;

first_or_next
    : FIRST
    | NEXT
    ;

row_or_rows
    : ROW
    | ROWS
    ;

locking_clause
    : %empty
    | FOR UPDATE
    | FOR SHARE
    | FOR UPDATE OF qualified_names
    | FOR SHARE OF qualified_names
    | FOR READ ONLY
    ;

values_clause
    : VALUES row_values
    ;

row_values
    : row_value
    | row_values ',' row_value
    ;

row_value
    : '(' values_or_defaults ')'
    ;

values_or_defaults
    : value_or_default
    | values_or_defaults ',' value_or_default
    ;

value_or_default
    : expression
    | DEFAULT
    ;

// -------------------------------------------------------------- changes

insert_statement
    : optional_with INSERT INTO qualified_name insert_source on_conflict returning_clause
    | optional_with INSERT INTO qualified_name AS name insert_source on_conflict returning_clause
    ;

optional_with
    : %empty
    | with_clause
    ;

insert_source
    : query
    | column_list query
    | DEFAULT VALUES
    ;

on_conflict
    : %empty
    | ON CONSTRAINT name DO NOTHING
    | ON CONSTRAINT name DO UPDATE SET assignments optional_where
    | ON column_list DO NOTHING
    | ON column_list DO UPDATE SET assignments optional_where
    ;

update_statement
    : optional_with UPDATE target_table SET assignments from_clause optional_where returning_clause
    ;

delete_statement
    : optional_with DELETE FROM target_table using_clause optional_where returning_clause
    ;

target_table
    : qualified_name
    | qualified_name AS name
    | qualified_name NAME
    | ONLY qualified_name
    ;

using_clause
    : %empty
    | USING table_references
    ;

assignments
    : assignment
    | assignments ',' assignment
    ;

assignment
    : assigned_column '=' value_or_default
    | column_list '=' row_value
    | column_list '=' '(' query ')'
    ;

assigned_column
    : name
    | assigned_column '.' name
    | assigned_column '[' expression ']'
    ;

returning_clause
    : %empty
    | RETURNING select_items
    ;

// ----------------------------------------------------------- conditions

condition
    : expression
    ;

expressions
    : expression
    | expressions ',' expression
    ;

expression
    : expression OR expression
    | expression AND expression
    | NOT expression
    | predicate
    | operand
    ;

predicate
    : operand comparison_operator operand           %prec '='
    | operand comparison_operator quantifier '(' query ')'  %prec '='
    | operand IS NULL                               %prec IS
    | operand IS NOT NULL                           %prec IS
    | operand IS truth_value                        %prec IS
    | operand IS NOT truth_value                    %prec IS
    | operand IS DISTINCT FROM operand              %prec IS
    | operand IS NOT DISTINCT FROM operand          %prec IS
    | operand BETWEEN operand AND operand           %prec BETWEEN
    | operand NOT BETWEEN operand AND operand       %prec BETWEEN
    | operand IN in_values                          %prec IN
    | operand NOT IN in_values                      %prec IN
    | operand like_operator operand                 %prec LIKE
    | operand like_operator operand ESCAPE operand  %prec ESCAPE
    | operand NOT like_operator operand             %prec LIKE
    | operand NOT like_operator operand ESCAPE operand  %prec ESCAPE
    | operand OVERLAPS operand
    | EXISTS '(' query ')'
    | UNIQUE '(' query ')'
    ;

comparison_operator
    : '='
    | '<>'
    | '!='
    | '<'
    | '>'
    | '<='
    | '>='
    ;

quantifier
    : ALL
    | ANY
    | SOME
    ;

truth_value
    : TRUE
    | FALSE
    | UNKNOWN
    ;

in_values
    : '(' query ')'
    | '(' expressions ')'
    ;

like_operator
    : LIKE
    | ILIKE
    | SIMILAR TO
    ;

// ------------------------------------------------------------- operands

operand
    : operand '+' operand
    | operand '-' operand
    | operand '*' operand
    | operand '/' operand
    | operand '%' operand
    | operand '^' operand
    | operand '||' operand
    | operand '->' operand
    | operand '->>' operand
    | '+' operand                                   %prec SIGN
    | '-' operand                                   %prec SIGN
    | operand '[' operand ']'
    | operand '::' data_type
    | operand AT TIME ZONE operand                  %prec AT
    | operand COLLATE qualified_name                %prec COLLATE_OPERATOR
    | primary
    ;

primary
    : literal
    | column_reference
    | PARAMETER
    | '(' expression ')'
    | '(' query ')'
    | ROW '(' expressions ')'
    | ROW '(' ')'
    | case_expression
    | cast_expression
    | special_function
    | function_call filter_clause over_clause
    ;

column_reference
    : qualified_name
    ;

literal
    : INTEGER
    | DECIMAL
    | STRING
    | NATIONAL_STRING
    | BIT_STRING
    | TRUE
    | FALSE
    | NULL
    | DATE STRING
    | TIME optional_zone STRING
    | TIMESTAMP optional_zone STRING
    | INTERVAL STRING
    | INTERVAL STRING interval_field
    | INTERVAL STRING interval_field TO interval_field
    ;

case_expression
    : CASE when_clauses else_clause END
    | CASE operand when_clauses else_clause END
    | NULLIF '(' expression ',' expression ')'
    | COALESCE '(' expressions ')'
    ;

when_clauses
    : when_clause
    | when_clauses when_clause
    ;

when_clause
    : WHEN condition THEN expression
    ;

else_clause
    : %empty
    | ELSE expression
    ;

cast_expression
    : CAST '(' expression AS data_type ')'
    ;

special_function
    : CURRENT_DATE
    | CURRENT_TIME optional_digits
    | CURRENT_TIMESTAMP optional_digits
    | CURRENT_USER
    | EXTRACT '(' interval_field FROM expression ')'
    | POSITION '(' operand IN operand ')'
    | SUBSTRING '(' expression FROM expression ')'
    | SUBSTRING '(' expression FROM expression FOR expression ')'
    | TRIM '(' expression ')'
    | TRIM '(' trim_side expression ')'
    | TRIM '(' trim_side FROM expression ')'
    | TRIM '(' trim_side expression FROM expression ')'
    | COUNT '(' '*' ')' filter_clause over_clause
    | COUNT '(' set_quantifier expression ')' filter_clause over_clause
    ;

trim_side
    : BOTH
    | LEADING
    | TRAILING
    ;

function_call
    : qualified_name '(' ')'
    | qualified_name '(' function_arguments order_clause ')'
    | qualified_name '(' DISTINCT function_arguments order_clause ')'
    | qualified_name '(' ALL function_arguments order_clause ')'
    ;

function_arguments
    : function_argument
    | function_arguments ',' function_argument
    ;

function_argument
    : expression
    | name '=>' expression
    ;

filter_clause
    : %empty
    | FILTER '(' WHERE condition ')'
    ;

over_clause
    : %empty                                        %prec POSTFIX
    | OVER name                                     %prec POSTFIX
    | OVER '(' window_specification ')'             %prec POSTFIX
    ;

window_specification
    : optional_window_name partition_clause order_clause frame_clause
    ;

optional_window_name
    : %empty
    | NAME
    | QUOTED_NAME
    ;

partition_clause
    : %empty
    | PARTITION BY expressions
    ;

frame_clause
    : %empty
    | frame_unit frame_bound frame_exclusion
    | frame_unit BETWEEN frame_bound AND frame_bound frame_exclusion
    ;

frame_unit
    : RANGE
    | ROWS
    | GROUPS
    ;

frame_bound
    : UNBOUNDED PRECEDING
    | UNBOUNDED FOLLOWING
    | CURRENT ROW
    | operand PRECEDING
    | operand FOLLOWING
    ;

frame_exclusion
    : %empty
    | EXCLUDE CURRENT ROW
    | EXCLUDE GROUP
    | EXCLUDE TIES
    | EXCLUDE NO OTHERS
    ;

// --------------------------------------------------------- transactions

transaction_statement
    : BEGIN optional_work transaction_modes
    | START TRANSACTION transaction_modes
    | COMMIT optional_work
    | END optional_work
    | ROLLBACK optional_work
    | ROLLBACK optional_work TO optional_savepoint name
    | SAVEPOINT name
    | RELEASE optional_savepoint name
    ;

optional_work
    : %empty
    | WORK
    | TRANSACTION
    ;

optional_savepoint
    : %empty
    | SAVEPOINT
    ;

transaction_modes
    : %empty
    | transaction_mode_list
    ;

transaction_mode_list
    : transaction_mode
    | transaction_mode_list ',' transaction_mode
    | transaction_mode_list transaction_mode
    ;

transaction_mode
    : ISOLATION LEVEL isolation_level
    | READ ONLY
    | READ WRITE
    ;

isolation_level
    : READ UNCOMMITTED
    | READ COMMITTED
    | REPEATABLE READ
    | SERIALIZABLE
    ;

lock_statement
    : LOCK TABLE qualified_names
    | LOCK TABLE qualified_names IN SHARE name
    | LOCK TABLE qualified_names IN ROW SHARE name
    ;

// --------------------------------------------------------------- rights

grant_statement
    : GRANT privileges ON grant_object TO grantees grant_option
    | GRANT column_names TO grantees
    ;

revoke_statement
    : REVOKE privileges ON grant_object FROM grantees drop_behaviour
    | REVOKE GRANT OPTION FOR privileges ON grant_object FROM grantees drop_behaviour
    ;

privileges
    : ALL
    | ALL PRIVILEGES
    | privilege_list
    ;

privilege_list
    : privilege
    | privilege_list ',' privilege
    ;

privilege
    : SELECT optional_column_list
    | INSERT optional_column_list
    | UPDATE optional_column_list
    | REFERENCES optional_column_list
    | DELETE
    | TRUNCATE
    ;

grant_object
    : qualified_names
    | TABLE qualified_names
    | DATABASE column_names
    ;

grantees
    : grantee
    | grantees ',' grantee
    ;

grantee
    : name
    | PUBLIC
    | CURRENT_USER
    ;

grant_option
    : %empty
    | WITH GRANT OPTION
    ;

// ------------------------------------------------------------- settings

set_statement
    : SET qualified_name '=' setting_values
    | SET qualified_name TO setting_values
    | SET TIME ZONE setting_value
    | SET TRANSACTION transaction_mode_list
    ;

setting_values
    : DEFAULT
    | setting_value
    | setting_values ',' setting_value
    ;

setting_value
    : name
    | STRING
    | ON
    | TRUE
    | FALSE
    | number
    ;

number
    : INTEGER
    | DECIMAL
    | '-' INTEGER
    | '-' DECIMAL
    ;
