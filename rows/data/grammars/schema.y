// Messages and services of a wire format, one file each.
// The keywords are declared as tokens, since most of them are fine as names too.

%token IDENT
%token INT FLOAT STRING
%token syntax import package option message enum service rpc returns stream
%token oneof map repeated optional reserved extensions to max true false

%start File

%%

File:
    Syntax Statements
;

Syntax:
  | syntax '=' STRING ';'
;

Statements:
  | Statements Statement
;

Statement:
    import ImportKind STRING ';'
  | package FullName ';'
  | Option
  | Message
  | Enum
  | Service
  | ';'
;

ImportKind:
  | "public"
  | "weak"
;

FullName:
    Name
  | FullName '.' Name
;

// A word of the language may be a name as well.
Name:
    IDENT
  | syntax | import | package | option | message | enum | service
  | rpc | returns | stream | oneof | map | reserved | extensions
  | to | max
;

// -- options -------------------------------------------------------------

Option:
    option OptionName '=' Constant ';'
;

OptionName:
    OptionPart
  | OptionName '.' OptionPart
;

OptionPart:
    Name
  | '(' TypeName ')'
;

Constant:
    FullName
  | INT | '-' INT | '+' INT
  | FLOAT | '-' FLOAT
  | STRING
  | true | false
  | '{' Pairs '}'
;

Pairs:
  | Pairs Name ':' Constant
  | Pairs Name ':' Constant ','
;

// -- messages ------------------------------------------------------------

Message:
    message Name '{' Members '}'
;

Members:
  | Members Member
;

Member:
    Field
  | oneof Name '{' Choices '}'
  | map '<' KeyType ',' TypeName '>' Name '=' INT FieldOptions ';'
  | reserved Ranges ';'
  | reserved Strings ';'
  | extensions Ranges ';'
  | Message
  | Enum
  | Option
  | ';'
;

Field:
    Label TypeName Name '=' INT FieldOptions ';'
;

Label:
  | repeated
  | optional
;

Choices:
  | Choices TypeName Name '=' INT FieldOptions ';'
  | Choices Option
;

TypeName:
    Builtin
  | IDENT Rest
  | '.' Name Rest
;

Rest:
  | Rest '.' Name
;

KeyType:
    "int32" | "int64" | "uint32" | "uint64" | "bool" | "string"
;

Builtin:
    KeyType
  | "double" | "float" | "bytes"
;

FieldOptions:
  | '[' FieldOptionList ']'
;

FieldOptionList:
    OptionName '=' Constant
  | FieldOptionList ',' OptionName '=' Constant
;

Ranges: Range | Ranges ',' Range ;
Range: INT | INT to INT | INT to max ;
Strings: STRING | Strings ',' STRING ;

// -- enumerations --------------------------------------------------------

Enum:
    enum Name '{' Values '}'
;

Values:
  | Values Name '=' INT FieldOptions ';'
  | Values Name '=' '-' INT FieldOptions ';'
  | Values Option
  | Values reserved Ranges ';'
;

// -- services ------------------------------------------------------------

Service:
    service Name '{' Calls '}'
;

Calls:
  | Calls rpc Name '(' Streamed ')' returns '(' Streamed ')' CallEnd
  | Calls Option
;

Streamed:
    TypeName
  | stream TypeName
;

CallEnd:
    ';'
  | '{' Options '}'
;

Options:
  | Options Option
;
