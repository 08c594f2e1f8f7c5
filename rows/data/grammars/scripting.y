/*	A scripting language with tables, closures and coroutines.

	A chunk is a block; a block is a row of statements. Calls are
	statements, other expressions aren't. */

%token	NAME NUMBER STRING
%token	AND BREAK DO ELSE ELSEIF END FALSE FOR FUNCTION GOTO IF IN
%token	LOCAL NIL NOT OR REPEAT RETURN THEN TRUE UNTIL WHILE

%start	chunk

%left	OR
%left	AND
%left	'<' '>' '<=' '>=' '~=' '=='
%left	'|'
%left	'~'
%left	'&'
%left	'<<' '>>'
%right	'..'
%left	'+' '-'
%left	'*' '/' '//' '%'
%right	NOT '#' UNARY
%right	'^'

%epp	NAME	'<name>'
%epp	NUMBER	'<number>'
%epp	STRING	'<string>'

%expect	1	// "f" and "(g)()" on two lines

%%

chunk	: block
	;

block	: statements
	| statements return_statement
	;

statements
	: %empty
	| statements statement
	;

statement
	: ';'
	| assignment
	| call
	| label
	| BREAK
	| GOTO NAME
	| DO block END
	| WHILE expression DO block END
	| REPEAT block UNTIL expression
	| IF expression THEN block elseifs else_part END
	| FOR NAME '=' expression ',' expression DO block END
	| FOR NAME '=' expression ',' expression ',' expression DO block END
	| FOR names IN expressions DO block END
	| FUNCTION function_name function_body
	| LOCAL FUNCTION NAME function_body
	| LOCAL attributed_names
	| LOCAL attributed_names '=' expressions
	;

assignment
	: variables '=' expressions
	;

elseifs	: %empty
	| elseifs ELSEIF expression THEN block
	;

else_part
	: %empty
	| ELSE block
	;

label	: '::' NAME '::'
	;

return_statement
	: RETURN
	| RETURN ';'
	| RETURN expressions
	| RETURN expressions ';'
	;

/* --- names and variables --- */

names	: NAME
	| names ',' NAME
	;

attributed_names
	: attributed_name
	| attributed_names ',' attributed_name
	;

attributed_name
	: NAME
	| NAME '<' NAME '>'
	;

function_name
	: dotted_name
	| dotted_name ':' NAME
	;

dotted_name
	: NAME
	| dotted_name '.' NAME
	;

variables
	: variable
	| variables ',' variable
	;

variable
	: NAME
	| prefix '[' expression ']'
	| prefix '.' NAME
	;

/* --- expressions --- */

expressions
	: expression
	| expressions ',' expression
	;

expression
	: simple
	| prefix
	| expression OR expression
	| expression AND expression
	| expression '<' expression
	| expression '>' expression
	| expression '<=' expression
	| expression '>=' expression
	| expression '~=' expression
	| expression '==' expression
	| expression '|' expression
	| expression '~' expression
	| expression '&' expression
	| expression '<<' expression
	| expression '>>' expression
	| expression '..' expression
	| expression '+' expression
	| expression '-' expression
	| expression '*' expression
	| expression '/' expression
	| expression '//' expression
	| expression '%' expression
	| expression '^' expression
	| NOT expression
	| '#' expression
	| '-' expression	%prec UNARY
	| '~' expression	%prec UNARY
	;

simple	: NIL
	| FALSE
	| TRUE
	| NUMBER
	| STRING
	| '...'
	| table
	| FUNCTION function_body
	;

/* What may stand before a call, an index or a dot. */
prefix	: variable
	| call
	| '(' expression ')'
	;

call	: prefix arguments
	| prefix ':' NAME arguments
	;

arguments
	: '(' ')'
	| '(' expressions ')'
	| table
	| STRING
	;

function_body
	: '(' parameters ')' block END
	;

parameters
	: %empty
	| names
	| names ',' '...'
	| '...'
	;

/* --- tables --- */

table	: '{' '}'
	| '{' fields '}'
	| '{' fields separator '}'
	;

fields	: field
	| fields separator field
	;

field	: '[' expression ']' '=' expression
	| NAME '=' expression
	| expression
	;

separator
	: ','
	| ';'
	;

%%

/* The words above, for the scanner: in the order of the alphabet. */
static const struct word { const char *text; int token; } words[] = {
	{ "and", AND }, { "break", BREAK }, { "do", DO }, { "else", ELSE },
	{ "elseif", ELSEIF }, { "end", END }, { "false", FALSE },
	{ "for", FOR }, { "function", FUNCTION }, { "goto", GOTO },
	{ "if", IF }, { "in", IN }, { "local", LOCAL }, { "nil", NIL },
	{ "not", NOT }, { "or", OR }, { "repeat", REPEAT },
	{ "return", RETURN }, { "then", THEN }, { "true", TRUE },
	{ "until", UNTIL }, { "while", WHILE },
};

static int compare(const void *a, const void *b)
{
	return strcmp(((const struct word *)a)->text, ((const struct word *)b)->text);
}
