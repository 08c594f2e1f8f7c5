// Documents: JSON as people would like to write it. Comments are the
// scanner's business; beyond these there are
//   - commas behind the last element,
//   - keys without quotes, and paths of keys,
//   - numbers with units, dates and sizes,
//   - strings over several lines, and strings in pieces,
//   - tags in front of values,
//   - anchors and references,
//   - included files, and schemas of what a document may hold,
//   - expressions and conditions, worked out while it is read.

%start Document
%actiontype Result<Value, Fault>
%parse-param reader: &'r mut Reader<'r, dyn Source>
%parse-generics 'r

%token STRING RAW_STRING LINE_STRING
%token INTEGER HEX_INTEGER FLOAT UNIT
%token DATE TIME DURATION SIZE
%token KEY

%token true false null infinity nan

%epp STRING "a string"
%epp KEY 'a key'
%epp RAW_STRING "a string (r\"..\")"
%epp INTEGER "a number"
%epp FLOAT "a number"
%epp '@' "@ (a tag)"
%epp '&' "& (an anchor)"

%avoid_insert STRING RAW_STRING LINE_STRING KEY
%avoid_insert INTEGER HEX_INTEGER FLOAT // whose values nobody knows
%avoid_insert DATE TIME

%right '?' ':'
%left 'or'
%left 'and'
%nonassoc '==' '!='
%nonassoc '<' '<=' '>' '>=' 'in'
%left '++'
%left '+' '-'
%left '*' '/' '%'
%right 'not' NEGATIVE
%left '.' '[' '('

%expect 0

%%

Document
    : Directives Value
        { reader.finish($1?, $2?) }
    | Directives Members
        { reader.finish_members($1?, $2?) }
    | Directives Members ','
        { reader.finish_members($1?, $2?) }
    ;

// ----------------------------------------------------------- directives

Directives
    : %empty
        { Ok(Value::Nothing) }
    | Directives Directive
        { reader.directive($1?, $2?) }
    ;

Directive
    : '#' 'version' INTEGER
        { reader.version($3?) }
    | '#' 'version' INTEGER '.' INTEGER
        { reader.version_of($3?, $5?) }
    | '#' 'schema' STRING
        { reader.schema($3?) }
    | '#' 'schema' SchemaBody
        { reader.own_schema($3?) }
    | '#' 'include' STRING
        { reader.include($3?, None) }
    | '#' 'include' STRING 'as' KEY
        { reader.include($3?, Some($5?)) }
    | '#' 'let' KEY '=' Expression
        { reader.define($3?, $5?) }
    | '#' 'tag' KEY '=' STRING
        { reader.tag($3?, $5?) }
    ;

// --------------------------------------------------------------- values

Value
    : PlainValue
        { $1 }
    | '@' TagName PlainValue
        { reader.tagged($2?, $3?) }
    | '&' KEY PlainValue
        { reader.anchor($2?, $3?) }
    | '&' KEY '@' TagName PlainValue
        {
            let value = reader.tagged($4?, $5?)?;
            reader.anchor($2?, Ok(value))
        }
    ;

TagName
    : KEY
        { Ok(reader.name($1?)) }
    | TagName '::' KEY
        { Ok(reader.join($1?, $3?)) }
    ;

PlainValue
    : Object
        { $1 }
    | Array
        { $1 }
    | Table
        { $1 }
    | Text
        { $1 }
    | Number
        { $1 }
    | Moment
        { $1 }
    | true
        { Ok(Value::Truth(true)) }
    | false
        { Ok(Value::Truth(false)) }
    | null
        { Ok(Value::Null) }
    | '*' KEY
        { reader.anchored($2?) }
    | '$' '(' Expression ')'
        { $3 }
    | '$' KEY
        { reader.defined($2?) }
    | 'when' Expression 'then' Value Otherwise
        { if $2?.holds()? { $4 } else { $5 } }
    ;

Otherwise
    : 'otherwise' Value
        { $2 }
    | 'or' 'when' Expression 'then' Value Otherwise
        { if $3?.holds()? { $5 } else { $6 } }
    ;

Object
    : '{' '}'
        { Ok(Value::object()) }
    | '{' Members '}'
        { $2 }
    | '{' Members ',' '}'
        { $2 }
    ;

Members
    : Member
        { Value::object().with($1?) }
    | Members ',' Member
        { $1?.with($3?) }
    ;

Member
    : Path ':' Value
        { Ok(Value::member($1?, $3?)) }
    | Path '?' ':' Value
        { Ok(Value::optional($1?, $4?)) }
    | Path '+=' Value
        { reader.added($1?, $3?) }
    | Path Object
        { Ok(Value::member($1?, $2?)) }
    | '...' Value
        { $2?.spread() }
    | 'delete' Path
        { Ok(Value::without($2?)) }
    | 'if' Expression '{' Members '}'
        { if $2?.holds()? { $4 } else { Ok(Value::object()) } }
    | 'if' Expression '{' Members '}' 'else' '{' Members '}'
        { if $2?.holds()? { $4 } else { $8 } }
    ;

Path
    : Key
        { Ok(Value::path($1?)) }
    | Path '.' Key
        { Ok($1?.step($3?)) }
    | Path '[' INTEGER ']'
        { $1?.element($3?) }
    ;

Key
    : KEY
        { Ok(reader.name($1?)) }
    | STRING
        { reader.text($1?) }
    | RAW_STRING
        { reader.raw($1?) }
    | INTEGER
        { reader.digits($1?) }
    | 'delete'
        { Ok(reader.word("delete")) }
    | 'when'
        { Ok(reader.word("when")) }
    | '[' Expression ']'
        { $2?.as_key() }
    ;

Array
    : '[' ']'
        { Ok(Value::array()) }
    | '[' Elements ']'
        { $2 }
    | '[' Elements ',' ']'
        { $2 }
    | '[' Value 'for' KEY 'in' Expression ']'
        { reader.each($2?, $4?, $6?, None) }
    | '[' Value 'for' KEY 'in' Expression 'where' Expression ']'
        { reader.each($2?, $4?, $6?, Some($8?)) }
    ;

Elements
    : Element
        { Value::array().push($1?) }
    | Elements ',' Element
        { $1?.push($3?) }
    ;

Element
    : Value
        { $1 }
    | '...' Value
        { $2?.spread() }
    ;

// A table is an array of objects that have the same keys.
Table
    : 'table' '(' Columns ')' '[' Rows ']'
        { reader.table($3?, $6?) }
    ;

Columns
    : Key
        { Value::array().push($1?) }
    | Columns ',' Key
        { $1?.push($3?) }
    ;

Rows
    : %empty
        { Ok(Value::array()) }
    | Rows '(' Elements ')'
        { $1?.push($3?) }
    | Rows ';'
        { $1 }
    ;

Text
    : STRING
        { reader.text($1?) }
    | RAW_STRING
        { reader.raw($1?) }
    | Lines
        { $1 }
    | Text '~' STRING
        { $1?.join(reader.text($3?)?) }
    ;

Lines
    : LINE_STRING
        { reader.line($1?) }
    | Lines LINE_STRING
        { $1?.next_line(reader.line($2?)?) }
    ;

Number
    : PlainNumber
        { $1 }
    | PlainNumber UNIT
        { $1?.with_unit(reader.unit($2?)?) }
    | '+' PlainNumber
        { $2 }
    | '-' PlainNumber
        { $2?.negative() }
    | '-' PlainNumber UNIT
        { $2?.negative()?.with_unit(reader.unit($3?)?) }
    | SIZE
        { reader.size($1?) }
    ;

PlainNumber
    : INTEGER
        { reader.integer($1?, 10) }
    | HEX_INTEGER
        { reader.integer($1?, 16) }
    | FLOAT
        { reader.float($1?) }
    | infinity
        { Ok(Value::Float(f64::INFINITY)) }
    | nan
        { Ok(Value::Float(f64::NAN)) }
    ;

Moment
    : DATE
        { reader.date($1?) }
    | TIME
        { reader.time($1?) }
    | DATE TIME
        { reader.moment($1?, $2?) }
    | DURATION
        { reader.duration($1?) }
    ;

// ---------------------------------------------------------- expressions

Expression
    : Expression '?' Expression ':' Expression
        { if $1?.holds()? { $3 } else { $5 } }
    | Expression 'or' Expression
        { $1?.or($3) }
    | Expression 'and' Expression
        { $1?.and($3) }
    | Expression '==' Expression
        { Ok($1?.equal(&$3?)) }
    | Expression '!=' Expression
        { Ok($1?.unequal(&$3?)) }
    | Expression '<' Expression
        { $1?.less(&$3?) }
    | Expression '<=' Expression
        { $1?.at_most(&$3?) }
    | Expression '>' Expression
        { $3?.less(&$1?) }
    | Expression '>=' Expression
        { $3?.at_most(&$1?) }
    | Expression 'in' Expression
        { $3?.holds_element(&$1?) }
    | Expression '++' Expression
        { $1?.join($3?) }
    | Expression '+' Expression
        { $1?.plus($3?) }
    | Expression '-' Expression
        { $1?.minus($3?) }
    | Expression '*' Expression
        { $1?.times($3?) }
    | Expression '/' Expression
        { $1?.over($3?) }
    | Expression '%' Expression
        { $1?.rest($3?) }
    | 'not' Expression
        { $2?.not() }
    | '-' Expression %prec NEGATIVE
        { $2?.negative() }
    | Expression '.' KEY
        { $1?.get(reader.name($3?)) }
    | Expression '[' Expression ']'
        { $1?.at(&$3?) }
    | KEY '(' ')'
        { reader.call($1?, vec![]) }
    | KEY '(' Arguments ')'
        { reader.call($1?, $3?.into_elements()) }
    | '(' Expression ')'
        { $2 }
    | KEY
        { reader.defined($1?) }
    | Text
        { $1 }
    | PlainNumber
        { $1 }
    | true
        { Ok(Value::Truth(true)) }
    | false
        { Ok(Value::Truth(false)) }
    | null
        { Ok(Value::Null) }
    ;

Arguments
    : Expression
        { Value::array().push($1?) }
    | Arguments ',' Expression
        { $1?.push($3?) }
    ;

// -------------------------------------------------------------- schemas

SchemaBody
    : '{' SchemaMembers '}'
        { Ok(Value::shape($2?)) }
    ;

SchemaMembers
    : %empty
        { Ok(Value::array()) }
    | SchemaMembers SchemaMember ';'
        { $1?.push($2?) }
    ;

SchemaMember
    : Key ':' Shape
        { Ok(Value::member($1?, $3?)) }
    | Key '?' ':' Shape
        { Ok(Value::optional($1?, $4?)) }
    | Key ':' Shape '=' Value
        { Ok(Value::with_default($1?, $3?, $5?)) }
    ;

Shape
    : SimpleShape
        { $1 }
    | Shape '|' SimpleShape
        { Ok($1?.either($3?)) }
    ;

SimpleShape
    : KEY
        { reader.shape($1?) }
    | KEY '(' Arguments ')'
        { reader.shape_of($1?, $3?) }
    | '[' Shape ']'
        { Ok($2?.repeated()) }
    | SchemaBody
        { $1 }
    | STRING
        { reader.text($1?) }
    | PlainNumber
        { $1 }
    | null
        { Ok(Value::Null) }
    ;

%%

// What the actions above answer. A document's values are few, and none
// of them is shared: an anchor's value is copied where it is named.

use std::collections::BTreeMap;

#[derive(Clone, Debug, PartialEq)]
pub enum Value {
    Nothing,
    Null,
    Truth(bool),
    Integer(i64),
    Float(f64),
    Text(String),
    Array(Vec<Value>),
    Object(BTreeMap<String, Value>),
}

impl Value {
    fn object() -> Value {
        Value::Object(BTreeMap::new())
    }

    fn array() -> Value {
        Value::Array(Vec::new())
    }

    /// Whether a condition holds: only truths are conditions.
    fn holds(&self) -> Result<bool, Fault> {
        match self {
            Value::Truth(truth) => Ok(*truth),
            other => Err(Fault::NoCondition(other.clone())),
        }
    }

    fn push(mut self, element: Value) -> Result<Value, Fault> {
        match &mut self {
            Value::Array(elements) => elements.push(element),
            _ => return Err(Fault::NoArray),
        }
        Ok(self)
    }
}

/* The marks that stand between the parts of a file: %% and no more.
   "Programs" may hold them, braces { and quotes " of any kind. */
const MARK: &str = "%%";
const OPEN: char = '{';
