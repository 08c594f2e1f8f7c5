/*****************************************************************
 *                                                               *
 *  Pascal with units, as a compiler for small machines takes it *
 *                                                               *
 *****************************************************************/

%token Identifier IntegerConst RealConst StringConst CharConst Directive

%token PROGRAM UNIT INTERFACE IMPLEMENTATION USES INITIALIZATION
%token LABEL CONST TYPE VAR PROCEDURE FUNCTION FORWARD EXTERNAL INLINE
%token PACKED ARRAY OF RECORD SET FILE STRING
%token BEGIN END IF THEN ELSE CASE OTHERWISE REPEAT UNTIL WHILE DO
       FOR TO DOWNTO WITH GOTO NIL
%token ASSIGN "LE" "GE" "NE" DOTDOT

%nonassoc '=' '<' '>' LE GE NE IN
%left '+' '-' OR XOR
%left '*' '/' DIV MOD AND SHL SHR
%right NOT '@' SIGN
%left '^' '.' '['
%nonassoc LOWER
%nonassoc ELSE

%token IN OR XOR DIV MOD AND SHL SHR NOT

%epp ASSIGN ":="
%epp "LE" "<="
%epp 'GE' ">="
%epp NE   "<>"
%epp DOTDOT ".."
%epp Identifier "identifier"

%start CompilationUnit
%expect 0

%%

CompilationUnit
    :  Program
    |  Unit
    ;

Program
    :  ProgramHeading UsesClause Block '.'
    ;

ProgramHeading
    :  %empty
    |  PROGRAM Identifier ';'
    |  PROGRAM Identifier '(' IdentifierList ')' ';'
    ;

Unit
    :  UNIT Identifier ';' InterfacePart ImplementationPart InitializationPart '.'
    ;

InterfacePart
    :  INTERFACE UsesClause InterfaceDeclarations
    ;

ImplementationPart
    :  IMPLEMENTATION UsesClause DeclarationSections
    ;

InitializationPart
    :  END
    |  CompoundStatement
    |  INITIALIZATION StatementSequence END
    ;

UsesClause
    :  %empty
    |  USES IdentifierList ';'
    ;

IdentifierList
    :  Identifier
    |  IdentifierList ',' Identifier
    ;

/*------------------------------ Declarations -------------------*/

InterfaceDeclarations
    :  %empty
    |  InterfaceDeclarations ConstSection
    |  InterfaceDeclarations TypeSection
    |  InterfaceDeclarations VarSection
    |  InterfaceDeclarations ProcedureHeading ';'
    |  InterfaceDeclarations FunctionHeading ';'
    ;

Block
    :  DeclarationSections CompoundStatement
    ;

DeclarationSections
    :  %empty
    |  DeclarationSections DeclarationSection
    ;

DeclarationSection
    :  LabelSection
    |  ConstSection
    |  TypeSection
    |  VarSection
    |  ProcedureDeclaration
    |  FunctionDeclaration
    ;

LabelSection
    :  LABEL Labels ';'
    ;

Labels
    :  Label
    |  Labels ',' Label
    ;

Label
    :  IntegerConst
    |  Identifier
    ;

ConstSection
    :  CONST ConstDefinition
    |  ConstSection ConstDefinition
    ;

ConstDefinition
    :  Identifier '=' Expression ';'
    |  Identifier ':' Type '=' TypedConst ';'
    ;

TypedConst
    :  Expression
    |  '(' TypedConsts ')'
    |  '(' RecordConsts ')'
    |  '(' RecordConsts ';' ')'
    ;

TypedConsts
    :  TypedConst ',' TypedConst
    |  TypedConsts ',' TypedConst
    ;

RecordConsts
    :  RecordConst
    |  RecordConsts ';' RecordConst
    ;

RecordConst
    :  Identifier ':' TypedConst
    ;

TypeSection
    :  TYPE TypeDefinition
    |  TypeSection TypeDefinition
    ;

TypeDefinition
    :  Identifier '=' Type ';'
    ;

VarSection
    :  VAR VarDeclaration
    |  VarSection VarDeclaration
    ;

VarDeclaration
    :  IdentifierList ':' Type ';'
    |  Identifier ':' Type '=' TypedConst ';'
    ;

ProcedureDeclaration
    :  ProcedureHeading ';' Body ';'
    ;

FunctionDeclaration
    :  FunctionHeading ';' Body ';'
    |  FUNCTION Identifier ';' Body ';'   /* its parameters stand where it was made FORWARD */
    ;

ProcedureHeading
    :  PROCEDURE Identifier FormalParameters
    ;

FunctionHeading
    :  FUNCTION Identifier FormalParameters ':' TypeIdentifier
    ;

Body
    :  Block
    |  FORWARD
    |  EXTERNAL
    |  EXTERNAL StringConst
    |  INLINE '(' InlineBytes ')'
    |  Directive
    ;

InlineBytes
    :  IntegerConst
    |  InlineBytes '/' IntegerConst
    ;

FormalParameters
    :  %empty
    |  '(' FormalParameterSections ')'
    ;

FormalParameterSections
    :  FormalParameterSection
    |  FormalParameterSections ';' FormalParameterSection
    ;

FormalParameterSection
    :  IdentifierList ':' ParameterType
    |  VAR IdentifierList
    |  VAR IdentifierList ':' ParameterType
    |  CONST IdentifierList ':' ParameterType
    |  ProcedureHeading
    |  FunctionHeading
    ;

ParameterType
    :  TypeIdentifier
    |  ARRAY OF TypeIdentifier
    ;

/*------------------------------ Types --------------------------*/

Type
    :  SimpleType
    |  StructuredType
    |  PACKED StructuredType
    |  '^' TypeIdentifier
    |  STRING '[' Expression ']'
    |  PROCEDURE FormalParameters
    |  FUNCTION FormalParameters ':' TypeIdentifier
    ;

TypeIdentifier
    :  Identifier
    |  Identifier '.' Identifier
    |  STRING
    |  FILE
    ;

SimpleType
    :  TypeIdentifier
    |  '(' IdentifierList ')'
    |  Constant DOTDOT Constant
    ;

StructuredType
    :  ARRAY '[' IndexTypes ']' OF Type
    |  RECORD FieldList END
    |  SET OF SimpleType
    |  FILE OF Type
    ;

IndexTypes
    :  SimpleType
    |  IndexTypes ',' SimpleType
    ;

FieldList
    :  %empty
    |  FixedPart
    |  FixedPart ';'
    |  FixedPart ';' VariantPart
    |  VariantPart
    ;

FixedPart
    :  RecordSection
    |  FixedPart ';' RecordSection
    ;

RecordSection
    :  IdentifierList ':' Type
    ;

VariantPart
    :  CASE Identifier ':' TypeIdentifier OF Variants
    |  CASE TypeIdentifier OF Variants
    ;

Variants
    :  %empty
    |  Variant
    |  Variants ';' Variant
    |  Variants ';'
    ;

Variant
    :  Constants ':' '(' FieldList ')'
    ;

Constants
    :  Constant
    |  Constants ',' Constant
    ;

Constant
    :  UnsignedConstant
    |  '+' UnsignedConstant %prec SIGN
    |  '-' UnsignedConstant %prec SIGN
    ;

UnsignedConstant
    :  Identifier
    |  IntegerConst
    |  RealConst
    |  CharConst
    |  StringConst
    ;

/*------------------------------ Statements ---------------------*/

CompoundStatement
    :  BEGIN StatementSequence END
    ;

StatementSequence
    :  Statement
    |  StatementSequence ';' Statement
    ;

Statement
    :  UnlabelledStatement
    |  Label ':' UnlabelledStatement
    ;

UnlabelledStatement
    :  %empty
    |  Designator ASSIGN Expression
    |  Designator
    |  GOTO Label
    |  CompoundStatement
    |  IF Expression THEN Statement %prec LOWER
    |  IF Expression THEN Statement ELSE Statement
    |  CASE Expression OF Cases OptionalSemicolon END
    |  CASE Expression OF Cases OptionalSemicolon OtherCases StatementSequence END
    |  REPEAT StatementSequence UNTIL Expression
    |  WHILE Expression DO Statement
    |  FOR Identifier ASSIGN Expression Direction Expression DO Statement
    |  WITH Designators DO Statement
    ;

Direction
    :  TO
    |  DOWNTO
    ;

Cases
    :  CaseElement
    |  Cases ';' CaseElement
    ;

CaseElement
    :  CaseLabels ':' Statement
    ;

CaseLabels
    :  CaseLabel
    |  CaseLabels ',' CaseLabel
    ;

CaseLabel
    :  Constant
    |  Constant DOTDOT Constant
    ;

OtherCases
    :  OTHERWISE
    |  ELSE
    ;

OptionalSemicolon
    :  %empty
    |  ';'
    ;

Designators
    :  Designator
    |  Designators ',' Designator
    ;

/*------------------------------ Expressions --------------------*/

Expression
    :  Expression '=' Expression
    |  Expression '<' Expression
    |  Expression '>' Expression
    |  Expression LE Expression
    |  Expression GE Expression
    |  Expression NE Expression
    |  Expression IN Expression
    |  Expression '+' Expression
    |  Expression '-' Expression
    |  Expression OR Expression
    |  Expression XOR Expression
    |  Expression '*' Expression
    |  Expression '/' Expression
    |  Expression DIV Expression
    |  Expression MOD Expression
    |  Expression AND Expression
    |  Expression SHL Expression
    |  Expression SHR Expression
    |  '+' Expression %prec SIGN
    |  '-' Expression %prec SIGN
    |  NOT Expression
    |  '@' Designator
    |  Factor
    ;

Factor
    :  Designator
    |  IntegerConst
    |  RealConst
    |  CharConst
    |  StringConst
    |  NIL
    |  '(' Expression ')'
    |  '[' ']'
    |  '[' SetElements ']'
    ;

SetElements
    :  SetElement
    |  SetElements ',' SetElement
    ;

SetElement
    :  Expression
    |  Expression DOTDOT Expression
    ;

Designator
    :  Identifier
    |  STRING '(' Expression ')'
    |  Designator '.' Identifier
    |  Designator '^'
    |  Designator '[' Expressions ']'
    |  Designator '(' ActualParameters ')'
    ;

Expressions
    :  Expression
    |  Expressions ',' Expression
    ;

/* Write's parameters may have a width, and a number of digits. */
ActualParameters
    :  ActualParameter
    |  ActualParameters ',' ActualParameter
    ;

ActualParameter
    :  Expression
    |  Expression ':' Expression
    |  Expression ':' Expression ':' Expression
    ;
