// Interfaces between programs: modules, interfaces with operations,
// structures, unions, values, constants and annotations, and services
// with streams. One file is one specification.

%token IDENTIFIER
%token INTEGER_LITERAL FLOATING_LITERAL FIXED_LITERAL
%token CHARACTER_LITERAL WIDE_CHARACTER_LITERAL
%token STRING_LITERAL WIDE_STRING_LITERAL
%token DOC_COMMENT

%epp IDENTIFIER "an identifier"
%epp '::' "::"
%epp '<<' "<<"

%left '|'
%left '^'
%left '&'
%left '<<' '>>'
%left '+' '-'
%left '*' '/' '%'
%right '~' SIGN

%avoid_insert IDENTIFIER DOC_COMMENT

%start specification

%expect-unused reserved_word
  'Object' 'ValueBase'   // for the specifications of old
%expect 0
%expect-rr 0

%%

specification:
	definitions
	| syntax_declaration definitions
	;

syntax_declaration:
	'syntax' '=' STRING_LITERAL ';'
	;

definitions:
	documented_definition
	| definitions documented_definition
	;

documented_definition:
	documentation annotations definition ';'
	| 'import' imported_scope ';'
	| 'typeid' scoped_name STRING_LITERAL ';'
	| 'typeprefix' scoped_name STRING_LITERAL ';'
	;

documentation:
	%empty
	| documentation DOC_COMMENT
	;

imported_scope:
	scoped_name
	| STRING_LITERAL
	;

definition:
	module
	| interface
	| value
	| service
	| type_declaration
	| constant_declaration
	| exception_declaration
	| annotation_declaration
	;

reserved_word: 'Object' | 'ValueBase' ;

// ---------------------------------------------------------- annotations

annotations:
	%empty
	| annotations annotation
	;

annotation:
	'@' scoped_name
	| '@' scoped_name '(' ')'
	| '@' scoped_name '(' constant_expression ')'
	| '@' scoped_name '(' annotation_parameters ')'
	;

annotation_parameters:
	annotation_parameter
	| annotation_parameters ',' annotation_parameter
	;

annotation_parameter:
	IDENTIFIER '=' constant_expression
	;

annotation_declaration:
	'@annotation' IDENTIFIER '{' annotation_members '}'
	;

annotation_members:
	%empty
	| annotation_members constant_type IDENTIFIER ';'
	| annotation_members constant_type IDENTIFIER 'default' constant_expression ';'
	| annotation_members constant_declaration ';'
	| annotation_members enumeration ';'
	;

// -------------------------------------------------- modules, interfaces

module:
	'module' IDENTIFIER '{' definitions '}'
	;

interface:
	interface_head '{' exports '}'
	| interface_kind IDENTIFIER
	;

interface_head:
	interface_kind IDENTIFIER inheritance
	;

interface_kind:
	'interface'
	| 'abstract' 'interface'
	| 'local' 'interface'
	;

inheritance:
	%empty
	| ':' scoped_names
	;

scoped_names:
	scoped_name
	| scoped_names ',' scoped_name
	;

scoped_name:
	IDENTIFIER
	| '::' IDENTIFIER
	| scoped_name '::' IDENTIFIER
	;

exports:
	%empty
	| exports documentation annotations export ';'
	;

export:
	operation
	| attribute
	| type_declaration
	| constant_declaration
	| exception_declaration
	;

attribute:
	'readonly' 'attribute' type_specification identifiers raises
	| 'attribute' type_specification identifiers attribute_raises
	;

attribute_raises:
	%empty
	| getraises
	| getraises setraises
	| setraises
	;

getraises: 'getraises' '(' scoped_names ')' ;
setraises: 'setraises' '(' scoped_names ')' ;

identifiers:
	IDENTIFIER
	| identifiers ',' IDENTIFIER
	;

operation:
	operation_attribute result_type IDENTIFIER '(' parameters ')' raises context
	;

operation_attribute:
	%empty
	| 'oneway'
	| 'idempotent'
	;

result_type:
	'void'
	| type_specification
	;

parameters:
	%empty
	| parameter_list
	;

parameter_list:
	parameter
	| parameter_list ',' parameter
	;

parameter:
	annotations direction type_specification IDENTIFIER
	;

direction: 'in' | 'out' | 'inout' ;

raises:
	%empty
	| 'raises' '(' scoped_names ')'
	;

context:
	%empty
	| 'context' '(' strings ')'
	;

strings:
	STRING_LITERAL
	| strings ',' STRING_LITERAL
	;

// --------------------------------------------------------------- values

value:
	'valuetype' IDENTIFIER
	| 'valuetype' IDENTIFIER type_specification
	| 'abstract' 'valuetype' IDENTIFIER value_inheritance '{' exports '}'
	| value_head '{' value_elements '}'
	;

value_head:
	'valuetype' IDENTIFIER value_inheritance
	| 'custom' 'valuetype' IDENTIFIER value_inheritance
	;

value_inheritance:
	%empty
	| ':' scoped_names
	| ':' 'truncatable' scoped_names
	| ':' scoped_names 'supports' scoped_names
	| 'supports' scoped_names
	;

value_elements:
	%empty
	| value_elements export ';'
	| value_elements state_member ';'
	| value_elements initializer ';'
	;

state_member:
	'public' type_specification declarators
	| 'private' type_specification declarators
	;

initializer:
	'factory' IDENTIFIER '(' parameters ')' raises
	;

// ------------------------------------------------------------- services

service:
	'service' IDENTIFIER '{' service_elements '}'
	;

service_elements:
	%empty
	| service_elements documentation annotations call ';'
	| service_elements documentation annotations call '{' options '}'
	| service_elements option
	;

call:
	'rpc' IDENTIFIER '(' message ')' 'returns' '(' message ')'
	;

message:
	scoped_name
	| 'stream' scoped_name
	;

options:
	%empty
	| options option
	;

option:
	'option' option_name '=' constant_expression ';'
	;

option_name:
	IDENTIFIER
	| '(' scoped_name ')'
	| option_name '.' IDENTIFIER
	;

// ------------------------------------------------------------ constants

constant_declaration:
	'const' constant_type IDENTIFIER '=' constant_expression
	;

constant_type:
	integer_type
	| character_type
	| boolean_type
	| floating_type
	| string_type
	| wide_string_type
	| 'fixed'
	| 'octet'
	| scoped_name
	;

constant_expression:
	constant_expression '|' constant_expression
	| constant_expression '^' constant_expression
	| constant_expression '&' constant_expression
	| constant_expression '<<' constant_expression
	| constant_expression '>>' constant_expression
	| constant_expression '+' constant_expression
	| constant_expression '-' constant_expression
	| constant_expression '*' constant_expression
	| constant_expression '/' constant_expression
	| constant_expression '%' constant_expression
	| '-' constant_expression %prec SIGN
	| '+' constant_expression %prec SIGN
	| '~' constant_expression
	| scoped_name
	| literal
	| '(' constant_expression ')'
	;

literal:
	INTEGER_LITERAL
	| FLOATING_LITERAL
	| FIXED_LITERAL
	| CHARACTER_LITERAL
	| WIDE_CHARACTER_LITERAL
	| string_literal
	| WIDE_STRING_LITERAL
	| 'TRUE'
	| 'FALSE'
	;

string_literal:
	STRING_LITERAL
	| string_literal STRING_LITERAL
	;

// ---------------------------------------------------------------- types

type_declaration:
	'typedef' type_specification declarators
	| 'typedef' constructed_type declarators
	| constructed_type
	| 'native' IDENTIFIER
	| 'struct' IDENTIFIER
	| 'union' IDENTIFIER
	;

type_specification:
	base_type
	| template_type
	| scoped_name
	;

base_type:
	floating_type
	| integer_type
	| character_type
	| boolean_type
	| 'octet'
	| 'any'
	;

floating_type: 'float' | 'double' | 'long' 'double' ;

integer_type:
	'short'
	| 'long'
	| 'long' 'long'
	| 'unsigned' 'short'
	| 'unsigned' 'long'
	| 'unsigned' 'long' 'long'
	| 'int8' | 'uint8'
	| 'int16' | 'uint16'
	| 'int32' | 'uint32'
	| 'int64' | 'uint64'
	;

character_type: 'char' | 'wchar' ;

boolean_type: 'boolean' ;

template_type:
	sequence_type
	| string_type
	| wide_string_type
	| map_type
	| 'fixed' '<' constant_expression ',' constant_expression '>'
	| 'optional' '<' type_specification '>'
	;

sequence_type:
	'sequence' '<' annotations type_specification '>'
	| 'sequence' '<' annotations type_specification ',' constant_expression '>'
	;

string_type:
	'string'
	| 'string' '<' constant_expression '>'
	;

wide_string_type:
	'wstring'
	| 'wstring' '<' constant_expression '>'
	;

map_type:
	'map' '<' type_specification ',' type_specification '>'
	| 'map' '<' type_specification ',' type_specification ',' constant_expression '>'
	;

constructed_type:
	structure
	| union
	| enumeration
	| bitset
	| bitmask
	;

structure:
	'struct' IDENTIFIER '{' members '}'
	| 'struct' IDENTIFIER ':' scoped_name '{' members '}'
	;

members:
	member
	| members member
	;

member:
	documentation annotations type_specification declarators ';'
	;

declarators:
	declarator
	| declarators ',' declarator
	;

declarator:
	IDENTIFIER
	| declarator '[' constant_expression ']'
	;

union:
	'union' IDENTIFIER 'switch' '(' annotations switch_type ')' '{' cases '}'
	;

switch_type:
	integer_type
	| character_type
	| boolean_type
	| 'octet'
	| scoped_name
	;

cases:
	case
	| cases case
	;

case:
	case_labels annotations type_specification declarator ';'
	;

case_labels:
	case_label
	| case_labels case_label
	;

case_label:
	'case' constant_expression ':'
	| 'default' ':'
	;

enumeration:
	'enum' IDENTIFIER '{' enumerators optional_comma '}'
	;

enumerators:
	enumerator
	| enumerators ',' enumerator
	;

enumerator:
	annotations IDENTIFIER
	| annotations IDENTIFIER '=' constant_expression
	;

optional_comma: | ',' ;

bitset:
	'bitset' IDENTIFIER inheritance '{' bitfields '}'
	;

bitfields:
	bitfield
	| bitfields bitfield
	;

bitfield:
	'bitfield' '<' constant_expression '>' ';'
	| 'bitfield' '<' constant_expression '>' identifiers ';'
	| 'bitfield' '<' constant_expression ',' integer_type '>' identifiers ';'
	;

bitmask:
	'bitmask' IDENTIFIER '{' bit_values optional_comma '}'
	;

bit_values:
	annotations IDENTIFIER
	| bit_values ',' annotations IDENTIFIER
	;

exception_declaration:
	'exception' IDENTIFIER '{' '}'
	| 'exception' IDENTIFIER '{' members '}'
	;
