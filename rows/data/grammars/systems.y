/*
 * A small systems language: functions, structures, pointers and the
 * operators of C, which are told apart by precedences.
 *
 * Types are names that the scanner knows (TYPE_NAME); it asks the table
 * of types, so the grammar needs no rule for that.
 */

%start translation_unit
%actiontype Node*

%expect 0
%expect-rr 0

/* What the scanner hands over with a value. */
%token IDENTIFIER TYPE_NAME INTEGER_LITERAL FLOAT_LITERAL
%token CHARACTER_LITERAL STRING_LITERAL

/* Keywords. */
%token BREAK CASE CONST CONTINUE DEFAULT DEFER DO ELSE ENUM EXTERN
       FALSE FOR FN GOTO IF IMPORT INLINE NULL RETURN SIZEOF
       STATIC STRUCT SWITCH TRUE TYPEDEF UNION VOLATILE WHILE

/* Names of the types that are built in. */
%token VOID BOOL CHAR I8 I16 I32 I64 U8 U16 U32 U64 F32 F64

/* Operators of more than one character. */
%token ADD_ASSIGN "+="
%token SUB_ASSIGN MUL_ASSIGN DIV_ASSIGN MOD_ASSIGN
%token AND_ASSIGN OR_ASSIGN XOR_ASSIGN SHL_ASSIGN SHR_ASSIGN
%token INC DEC ARROW ELLIPSIS

/* Binding strengths, the weakest first. */
%left ','
%right '=' ADD_ASSIGN SUB_ASSIGN MUL_ASSIGN DIV_ASSIGN MOD_ASSIGN AND_ASSIGN OR_ASSIGN XOR_ASSIGN SHL_ASSIGN SHR_ASSIGN
%right '?' ':'
%left OR
%left AND
%left '|'
%left '^'
%left '&'
%left EQ NE
%left '<' '>' LE GE
%left SHL SHR
%left '+' '-'
%left '*' '/' '%'
%right '!' '~' UNARY_MINUS UNARY_PLUS DEREFERENCE ADDRESS CAST SIZEOF PREFIX
%left '.' ARROW '[' '(' INC DEC
%nonassoc THEN
%nonassoc ELSE

%epp IDENTIFIER "a name"
%epp TYPE_NAME "the name of a type"
%epp INTEGER_LITERAL "a number"
%epp FLOAT_LITERAL "a number"
%epp STRING_LITERAL "a string"
%epp ELLIPSIS "..."
%epp ARROW "->"
%epp INC "++"
%epp DEC "--"
%epp SHL "<<"
%epp SHR ">>"

%token SHL SHR LE GE EQ NE AND OR

%%

/* ------------------------------------------------------------- files */

translation_unit
	: imports external_declarations
		{ $$ = unit($1, $2); }
	;

imports
	: %empty
		{ $$ = nil(); }
	| imports IMPORT STRING_LITERAL ';'
		{ $$ = append($1, import($3)); }
	| imports IMPORT IDENTIFIER '=' STRING_LITERAL ';'
		{ $$ = append($1, import_as($3, $5)); }
	;

external_declarations
	: %empty
		{ $$ = nil(); }
	| external_declarations external_declaration
		{ $$ = append($1, $2); }
	;

external_declaration
	: function_definition
	| function_prototype
	| declaration
	| type_definition
	| EXTERN STRING_LITERAL '{' external_declarations '}'
		{ $$ = linkage($2, $4); }
	| ';'
		{ $$ = nil(); }
	;

/* --------------------------------------------------------- functions */

function_definition
	: function_head compound_statement
		{
			$$ = function($1, $2);
			if (!returns($$)) { warn(@1, "no value is returned"); }
		}
	;

function_prototype
	: function_head ';'
		{ $$ = prototype($1); }
	;

function_head
	: storage_class FN IDENTIFIER '(' parameters ')' result_type
		{ $$ = head($1, $3, $5, $7); }
	;

storage_class
	: %empty		{ $$ = none(); }
	| STATIC		{ $$ = storage(S_STATIC); }
	| EXTERN		{ $$ = storage(S_EXTERN); }
	| INLINE		{ $$ = storage(S_INLINE); }
	| STATIC INLINE		{ $$ = storage(S_STATIC | S_INLINE); }
	;

result_type
	: %empty		{ $$ = builtin(T_VOID); }
	| ARROW type		{ $$ = $2; }
	;

parameters
	: %empty
		{ $$ = nil(); }
	| parameter_list
	| parameter_list ',' ELLIPSIS
		{ $$ = variadic($1); }
	| ELLIPSIS
		{ $$ = variadic(nil()); }
	;

parameter_list
	: parameter
		{ $$ = list($1); }
	| parameter_list ',' parameter
		{ $$ = append($1, $3); }
	;

parameter
	: IDENTIFIER ':' type
		{ $$ = parameter($1, $3); }
	| type
		{ $$ = parameter(anonymous(), $1); }
	;

/* ------------------------------------------------------------- types */

type
	: qualified_type
	| pointer_type
	| array_type
	| function_type
	;

qualified_type
	: base_type
	| CONST base_type
		{ $$ = qualify(Q_CONST, $2); }
	| VOLATILE base_type
		{ $$ = qualify(Q_VOLATILE, $2); }
	| CONST VOLATILE base_type
		{ $$ = qualify(Q_CONST | Q_VOLATILE, $3); }
	;

pointer_type
	: '*' type
		{ $$ = pointer_to($2); }
	;

array_type
	: '[' ']' type
		{ $$ = array_of($3, unknown()); }
	| '[' constant_expression ']' type
		{ $$ = array_of($4, $2); }
	;

function_type
	: FN '(' parameters ')' result_type
		{ $$ = function_type($3, $5); }
	;

base_type
	: VOID			{ $$ = builtin(T_VOID); }
	| BOOL			{ $$ = builtin(T_BOOL); }
	| CHAR			{ $$ = builtin(T_CHAR); }
	| I8			{ $$ = builtin(T_I8); }
	| I16			{ $$ = builtin(T_I16); }
	| I32			{ $$ = builtin(T_I32); }
	| I64			{ $$ = builtin(T_I64); }
	| U8			{ $$ = builtin(T_U8); }
	| U16			{ $$ = builtin(T_U16); }
	| U32			{ $$ = builtin(T_U32); }
	| U64			{ $$ = builtin(T_U64); }
	| F32			{ $$ = builtin(T_F32); }
	| F64			{ $$ = builtin(T_F64); }
	| TYPE_NAME		{ $$ = named_type($1); }
	| structure_type
	| enumeration_type
	;

structure_type
	: structure_word IDENTIFIER
		{ $$ = tagged($1, $2); }
	| structure_word '{' members '}'
		{ $$ = structure($1, anonymous(), $3); }
	| structure_word IDENTIFIER '{' members '}'
		{ $$ = structure($1, $2, $4); }
	;

structure_word
	: STRUCT		{ $$ = word(W_STRUCT); }
	| UNION			{ $$ = word(W_UNION); }
	;

members
	: %empty		{ $$ = nil(); }
	| members member	{ $$ = append($1, $2); }
	;

member
	: identifiers ':' type ';'
		{ $$ = members($1, $3); }
	| identifiers ':' type '=' constant_expression ';'
		{ $$ = bit_field($1, $3, $5); }
	| structure_type ';'
		{ $$ = members(anonymous(), $1); }
	;

identifiers
	: IDENTIFIER
		{ $$ = list($1); }
	| identifiers ',' IDENTIFIER
		{ $$ = append($1, $3); }
	;

enumeration_type
	: ENUM IDENTIFIER
		{ $$ = tagged(word(W_ENUM), $2); }
	| ENUM '{' enumerators optional_comma '}'
		{ $$ = enumeration(anonymous(), $3); }
	| ENUM IDENTIFIER '{' enumerators optional_comma '}'
		{ $$ = enumeration($2, $4); }
	;

enumerators
	: enumerator
		{ $$ = list($1); }
	| enumerators ',' enumerator
		{ $$ = append($1, $3); }
	;

enumerator
	: IDENTIFIER
		{ $$ = enumerator($1, next_value()); }
	| IDENTIFIER '=' constant_expression
		{ $$ = enumerator($1, $3); }
	;

optional_comma
	: /* none */
	| ','
	;

type_definition
	: TYPEDEF IDENTIFIER '=' type ';'
		{ $$ = typedef($2, $4); know_type($2); }
	;

/* ------------------------------------------------------ declarations */

declaration
	: storage_class CONST identifiers ':' type '=' initializer ';'
		{ $$ = constants($1, $3, $5, $7); }
	| storage_class identifiers ':' type ';'
		{ $$ = variables($1, $2, $4, none()); }
	| storage_class identifiers ':' type '=' initializer ';'
		{ $$ = variables($1, $2, $4, $6); }
	;

initializer
	: assignment_expression
	| '{' '}'
		{ $$ = zeroes(); }
	| '{' initializers optional_comma '}'
		{ $$ = compound($2); }
	;

initializers
	: designated_initializer
		{ $$ = list($1); }
	| initializers ',' designated_initializer
		{ $$ = append($1, $3); }
	;

designated_initializer
	: initializer
	| designators '=' initializer
		{ $$ = designated($1, $3); }
	;

designators
	: designator
		{ $$ = list($1); }
	| designators designator
		{ $$ = append($1, $2); }
	;

designator
	: '.' IDENTIFIER
		{ $$ = field_of($2); }
	| '[' constant_expression ']'
		{ $$ = place_of($2); }
	;

/* -------------------------------------------------------- statements */

statement
	: labelled_statement
	| compound_statement
	| expression_statement
	| selection_statement
	| iteration_statement
	| jump_statement
	;

labelled_statement
	: IDENTIFIER ':' statement
		{ $$ = label($1, $3); }
	| CASE constant_expression ':' statement
		{ $$ = case_of($2, $4); }
	| CASE constant_expression ELLIPSIS constant_expression ':' statement
		{ $$ = case_range($2, $4, $6); }
	| DEFAULT ':' statement
		{ $$ = case_default($3); }
	;

compound_statement
	: '{' block_items '}'
		{ $$ = block($2); }
	;

block_items
	: %empty
		{ $$ = nil(); }
	| block_items block_item
		{ $$ = append($1, $2); }
	;

block_item
	: declaration
	| type_definition
	| statement
	;

expression_statement
	: ';'
		{ $$ = nil(); }
	| expression ';'
		{ $$ = evaluate($1); }
	;

selection_statement
	: IF '(' expression ')' statement %prec THEN
		{ $$ = if_then($3, $5, nil()); }
	| IF '(' expression ')' statement ELSE statement
		{ $$ = if_then($3, $5, $7); }
	| SWITCH '(' expression ')' statement
		{ $$ = switch_on($3, $5); }
	;

iteration_statement
	: WHILE '(' expression ')' statement
		{ $$ = while_loop($3, $5); }
	| DO statement WHILE '(' expression ')' ';'
		{ $$ = do_loop($2, $5); }
	| FOR '(' optional_expression ';' optional_expression ';' optional_expression ')' statement
		{ $$ = for_loop($3, $5, $7, $9); }
	| FOR '(' declaration optional_expression ';' optional_expression ')' statement
		{ $$ = for_loop($3, $4, $6, $8); }
	;

jump_statement
	: GOTO IDENTIFIER ';'		{ $$ = jump($2); }
	| CONTINUE ';'			{ $$ = next_turn(); }
	| BREAK ';'			{ $$ = leave(); }
	| RETURN optional_expression ';'	{ $$ = answer($2); }
	| DEFER statement		{ $$ = defer($2); }
	;

optional_expression
	: %empty		{ $$ = nil(); }
	| expression
	;

/* ------------------------------------------------------- expressions */

constant_expression
	: conditional_expression
	;

expression
	: assignment_expression
	| expression ',' assignment_expression
		{ $$ = binary(O_COMMA, $1, $3); }
	;

assignment_expression
	: conditional_expression
	| conditional_expression '=' assignment_expression
		{ $$ = assign(O_NONE, $1, $3); }
	| conditional_expression ADD_ASSIGN assignment_expression
		{ $$ = assign(O_ADD, $1, $3); }
	| conditional_expression SUB_ASSIGN assignment_expression
		{ $$ = assign(O_SUB, $1, $3); }
	| conditional_expression MUL_ASSIGN assignment_expression
		{ $$ = assign(O_MUL, $1, $3); }
	| conditional_expression DIV_ASSIGN assignment_expression
		{ $$ = assign(O_DIV, $1, $3); }
	| conditional_expression MOD_ASSIGN assignment_expression
		{ $$ = assign(O_MOD, $1, $3); }
	| conditional_expression AND_ASSIGN assignment_expression
		{ $$ = assign(O_AND, $1, $3); }
	| conditional_expression OR_ASSIGN assignment_expression
		{ $$ = assign(O_OR, $1, $3); }
	| conditional_expression XOR_ASSIGN assignment_expression
		{ $$ = assign(O_XOR, $1, $3); }
	| conditional_expression SHL_ASSIGN assignment_expression
		{ $$ = assign(O_SHL, $1, $3); }
	| conditional_expression SHR_ASSIGN assignment_expression
		{ $$ = assign(O_SHR, $1, $3); }
	;

conditional_expression
	: operation
	| operation '?' expression ':' conditional_expression
		{ $$ = choose($1, $3, $5); }
	;

operation
	: operation OR operation	{ $$ = binary(O_LOR, $1, $3); }
	| operation AND operation	{ $$ = binary(O_LAND, $1, $3); }
	| operation '|' operation	{ $$ = binary(O_OR, $1, $3); }
	| operation '^' operation	{ $$ = binary(O_XOR, $1, $3); }
	| operation '&' operation	{ $$ = binary(O_AND, $1, $3); }
	| operation EQ operation	{ $$ = binary(O_EQ, $1, $3); }
	| operation NE operation	{ $$ = binary(O_NE, $1, $3); }
	| operation '<' operation	{ $$ = binary(O_LT, $1, $3); }
	| operation '>' operation	{ $$ = binary(O_GT, $1, $3); }
	| operation LE operation	{ $$ = binary(O_LE, $1, $3); }
	| operation GE operation	{ $$ = binary(O_GE, $1, $3); }
	| operation SHL operation	{ $$ = binary(O_SHL, $1, $3); }
	| operation SHR operation	{ $$ = binary(O_SHR, $1, $3); }
	| operation '+' operation	{ $$ = binary(O_ADD, $1, $3); }
	| operation '-' operation	{ $$ = binary(O_SUB, $1, $3); }
	| operation '*' operation	{ $$ = binary(O_MUL, $1, $3); }
	| operation '/' operation	{ $$ = binary(O_DIV, $1, $3); }
	| operation '%' operation	{ $$ = binary(O_MOD, $1, $3); }
	| unary_operation
	;

unary_operation
	: '-' operation %prec UNARY_MINUS	{ $$ = unary(O_NEG, $2); }
	| '+' operation %prec UNARY_PLUS	{ $$ = unary(O_POS, $2); }
	| '!' operation				{ $$ = unary(O_NOT, $2); }
	| '~' operation				{ $$ = unary(O_COM, $2); }
	| '*' operation %prec DEREFERENCE	{ $$ = unary(O_DEREF, $2); }
	| '&' operation %prec ADDRESS		{ $$ = unary(O_ADDR, $2); }
	| INC operation %prec PREFIX		{ $$ = unary(O_PREINC, $2); }
	| DEC operation %prec PREFIX		{ $$ = unary(O_PREDEC, $2); }
	| SIZEOF operation			{ $$ = size_of($2); }
	| SIZEOF '<' type '>'			{ $$ = size_of_type($3); }
	| '<' type '>' operation %prec CAST	{ $$ = cast($2, $4); }
	| postfix_expression
	;

postfix_expression
	: primary_expression
	| postfix_expression '[' expression ']'	{ $$ = subscript($1, $3); }
	| postfix_expression '(' arguments ')'	{ $$ = call($1, $3); }
	| postfix_expression '.' IDENTIFIER	{ $$ = select($1, $3); }
	| postfix_expression ARROW IDENTIFIER	{ $$ = select(unary(O_DEREF, $1), $3); }
	| postfix_expression INC		{ $$ = unary(O_POSTINC, $1); }
	| postfix_expression DEC		{ $$ = unary(O_POSTDEC, $1); }
	;

arguments
	: %empty		{ $$ = nil(); }
	| argument_list
	;

argument_list
	: assignment_expression
		{ $$ = list($1); }
	| argument_list ',' assignment_expression
		{ $$ = append($1, $3); }
	;

primary_expression
	: IDENTIFIER		{ $$ = name($1); }
	| INTEGER_LITERAL	{ $$ = integer($1); }
	| FLOAT_LITERAL		{ $$ = floating($1); }
	| CHARACTER_LITERAL	{ $$ = character($1); }
	| strings
	| TRUE			{ $$ = truth(1); }
	| FALSE			{ $$ = truth(0); }
	| NULL			{ $$ = null(); }
	| '(' expression ')'	{ $$ = $2; }
	;

strings
	: STRING_LITERAL		{ $$ = string($1); }
	| strings STRING_LITERAL	{ $$ = joined($1, $2); }
	;

%%

#include "node.h"

int main(int argc, char **argv)
{
	if (argc != 2) {
		fprintf(stderr, "usage: %s FILE\n", argv[0]);
		return 2;
	}
	return compile(argv[1]);
}
