// A language of classes, for an editor that parses while one types.
// White space and comments are tokens here, and may stand behind every
// other token; the tree keeps them, so nothing of the text is lost.
%implicit_tokens WHITESPACE LINE_COMMENT BLOCK_COMMENT
%implicit_tokens 'NEWLINE' // its own token: the editor counts them
%start CompilationUnit

%token IDENTIFIER INTEGER_LITERAL FLOAT_LITERAL STRING_LITERAL CHAR_LITERAL

%avoid_insert IDENTIFIER STRING_LITERAL
%avoid_insert INTEGER_LITERAL
%avoid_insert 'NEWLINE'
%epp 'NEWLINE' "end of the line"
%epp IDENTIFIER "identifier"
%epp '<<' "shift to the left"

%right '=' '+=' '-=' '*=' '/='
%right '?' ':'
%left '||'
%left '&&'
%left '|'
%left '^'
%left '&'
%left '==' '!='
%left '<' '>' '<=' '>=' 'instanceof'
%left '<<' '>>'
%left '+' '-'
%left '*' '/' '%'
%right UNARY
%left '.' '[' '('
%nonassoc WITHOUT_ELSE
%nonassoc 'else'

%expect-unused LegacyModifier
%%

CompilationUnit : PackageDeclaration Imports TypeDeclarations ;

PackageDeclaration
    :
    | 'package' QualifiedName ';'
    ;

Imports
    :
    | Imports Import
    ;

Import
    : 'import' QualifiedName ';'
    | 'import' QualifiedName '.' '*' ';'
    | 'import' 'static' QualifiedName ';'
    ;

QualifiedName
    : IDENTIFIER
    | QualifiedName '.' IDENTIFIER
    ;

TypeDeclarations
    :
    | TypeDeclarations TypeDeclaration
    ;

TypeDeclaration
    : Modifiers ClassDeclaration
    | Modifiers InterfaceDeclaration
    | Modifiers EnumDeclaration
    | ';'
    ;

Modifiers
    :
    | Modifiers Modifier
    ;

Modifier
    : 'public' | 'protected' | 'private'
    | 'static' | 'abstract' | 'final'
    | Annotation
    ;

// Kept until no file has it any more.
LegacyModifier : 'strict' | 'transient' | 'volatile' ;

Annotation
    : '@' QualifiedName
    | '@' QualifiedName '(' ')'
    | '@' QualifiedName '(' Arguments ')'
    ;

ClassDeclaration
    : 'class' IDENTIFIER TypeParameters Extends Implements ClassBody
    ;

TypeParameters
    :
    | '<' TypeParameterList '>'
    ;

TypeParameterList
    : TypeParameter
    | TypeParameterList ',' TypeParameter
    ;

TypeParameter
    : IDENTIFIER
    | IDENTIFIER 'extends' Bounds
    ;

Bounds
    : Type
    | Bounds '&' Type
    ;

Extends
    :
    | 'extends' Type
    ;

Implements
    :
    | 'implements' TypeList
    ;

TypeList
    : Type
    | TypeList ',' Type
    ;

ClassBody : '{' Members '}' ;

Members
    :
    | Members Member
    ;

Member
    : Modifiers Field
    | Modifiers Method
    | Modifiers Constructor
    | Modifiers ClassDeclaration
    | Modifiers EnumDeclaration
    | 'static' Block
    | ';'
    ;

Field : Type Variables ';' ;

Variables
    : Variable
    | Variables ',' Variable
    ;

Variable
    : IDENTIFIER
    | IDENTIFIER '=' VariableInitializer
    ;

VariableInitializer
    : Expression
    | '{' '}'
    | '{' VariableInitializers OptionalComma '}'
    ;

VariableInitializers
    : VariableInitializer
    | VariableInitializers ',' VariableInitializer
    ;

OptionalComma : %empty | ',' ;

Method
    : MethodHead Block
    | MethodHead ';'
    ;

MethodHead
    : TypeParameters ResultType IDENTIFIER '(' Parameters ')' Throws
    ;

ResultType : Type | 'void' ;

Constructor : IDENTIFIER '(' Parameters ')' Throws Block ;

Parameters
    :
    | ParameterList
    ;

ParameterList
    : Parameter
    | ParameterList ',' Parameter
    ;

Parameter
    : Type IDENTIFIER
    | 'final' Type IDENTIFIER
    | Type '...' IDENTIFIER
    ;

Throws
    :
    | 'throws' TypeList
    ;

InterfaceDeclaration
    : 'interface' IDENTIFIER TypeParameters '{' InterfaceMembers '}'
    | 'interface' IDENTIFIER TypeParameters 'extends' TypeList '{' InterfaceMembers '}'
    ;

InterfaceMembers
    :
    | InterfaceMembers Modifiers MethodHead ';'
    | InterfaceMembers Modifiers 'default' MethodHead Block
    | InterfaceMembers Modifiers Field
    ;

EnumDeclaration
    : 'enum' IDENTIFIER Implements '{' Constants OptionalComma '}'
    | 'enum' IDENTIFIER Implements '{' Constants OptionalComma ';' Members '}'
    ;

Constants
    : Constant
    | Constants ',' Constant
    ;

Constant
    : IDENTIFIER
    | IDENTIFIER '(' ')'
    | IDENTIFIER '(' Arguments ')'
    | IDENTIFIER ClassBody
    ;

// ---------------------------------------------------------------- types

Type
    : PrimitiveType
    | ReferenceType
    | Type '[' ']'
    ;

PrimitiveType
    : 'boolean' | 'byte' | 'char' | 'short' | 'int' | 'long' | 'float' | 'double' ;

ReferenceType
    : QualifiedName
    | QualifiedName '<' TypeArguments '>'
    | QualifiedName '<' '>'
    ;

TypeArguments
    : TypeArgument
    | TypeArguments ',' TypeArgument
    ;

TypeArgument
    : Type
    | '?'
    | '?' 'extends' Type
    | '?' 'super' Type
    ;

// ----------------------------------------------------------- statements

Block : '{' Statements '}' ;

Statements
    :
    | Statements Statement
    ;

Statement
    : Block
    | ';'
    | Type Variables ';'
    | 'final' Type Variables ';'
    | Expression ';'
    | 'if' '(' Expression ')' Statement %prec WITHOUT_ELSE
    | 'if' '(' Expression ')' Statement 'else' Statement
    | 'while' '(' Expression ')' Statement
    | 'do' Statement 'while' '(' Expression ')' ';'
    | 'for' '(' ForStart ForCondition ';' ForStep ')' Statement
    | 'for' '(' Type IDENTIFIER ':' Expression ')' Statement
    | 'switch' '(' Expression ')' '{' Cases '}'
    | 'try' Block Catches Finally
    | 'try' '(' Type IDENTIFIER '=' Expression ')' Block Catches Finally
    | 'synchronized' '(' Expression ')' Block
    | 'return' ';'
    | 'return' Expression ';'
    | 'throw' Expression ';'
    | 'break' ';'
    | 'break' IDENTIFIER ';'
    | 'continue' ';'
    | 'continue' IDENTIFIER ';'
    | 'assert' Expression ';'
    | 'assert' Expression ':' Expression ';'
    | IDENTIFIER ':' Statement
    ;

ForStart
    : ';'
    | Type Variables ';'
    | Expressions ';'
    ;

ForCondition : | Expression ;

ForStep : | Expressions ;

Cases
    :
    | Cases 'case' Expression ':' Statements
    | Cases 'default' ':' Statements
    ;

Catches
    :
    | Catches 'catch' '(' CaughtTypes IDENTIFIER ')' Block
    ;

CaughtTypes
    : Type
    | CaughtTypes '|' Type
    ;

Finally : | 'finally' Block ;

// ---------------------------------------------------------- expressions

Expressions
    : Expression
    | Expressions ',' Expression
    ;

Arguments : Expressions ;

Expression
    : Expression '=' Expression
    | Expression '+=' Expression
    | Expression '-=' Expression
    | Expression '*=' Expression
    | Expression '/=' Expression
    | Expression '?' Expression ':' Expression
    | Expression '||' Expression
    | Expression '&&' Expression
    | Expression '|' Expression
    | Expression '^' Expression
    | Expression '&' Expression
    | Expression '==' Expression
    | Expression '!=' Expression
    | Expression '<' Expression
    | Expression '>' Expression
    | Expression '<=' Expression
    | Expression '>=' Expression
    | Expression 'instanceof' Type
    | Expression '<<' Expression
    | Expression '>>' Expression
    | Expression '+' Expression
    | Expression '-' Expression
    | Expression '*' Expression
    | Expression '/' Expression
    | Expression '%' Expression
    | '+' Expression %prec UNARY
    | '-' Expression %prec UNARY
    | '!' Expression %prec UNARY
    | '~' Expression %prec UNARY
    | '++' Expression %prec UNARY
    | '--' Expression %prec UNARY
    | Expression '++'
    | Expression '--'
    | '(' PrimitiveType ')' Expression %prec UNARY
    | Lambda
    | Primary
    ;

Lambda
    : IDENTIFIER '->' LambdaBody
    | '(' ')' '->' LambdaBody
    | '(' ParameterList ')' '->' LambdaBody
    ;

LambdaBody : Expression | Block ;

Primary
    : Literal
    | IDENTIFIER
    | 'this'
    | 'super' '.' IDENTIFIER
    | '(' Expression ')'
    | Primary '.' IDENTIFIER
    | Primary '[' Expression ']'
    | Primary '(' ')'
    | Primary '(' Arguments ')'
    | 'new' ReferenceType '(' ')'
    | 'new' ReferenceType '(' Arguments ')'
    | 'new' ReferenceType '(' ')' ClassBody
    | 'new' Type '[' Expression ']'
    | Type '::' IDENTIFIER
    | Type '::' 'new'
    ;

Literal
    : INTEGER_LITERAL
    | FLOAT_LITERAL
    | STRING_LITERAL
    | CHAR_LITERAL
    | 'true'
    | 'false'
    | 'null'
    ;
