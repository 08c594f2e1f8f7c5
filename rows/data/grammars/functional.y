// A functional language with data types, patterns, type classes and
// modules. The scanner puts '{', ';' and '}' in where a line's indent
// asks for them.
%start Module
%parse-param arena: &'a ast::Arena<'a>
%parse-generics 'a
%avoid_insert "INT" "FLOAT" "CHAR" "STRING"
%avoid_insert "LOWER" "UPPER"
%epp "INT" "integer"
%epp "FLOAT" "number with a fraction"
%epp "LOWER" "name of a value"
%epp "UPPER" "name of a type or a constructor"
%epp LAMBDA 'a backslash'
%token LAMBDA
%expect-unused Unmatched 'UNMATCHED'
%expect 2

// From the loosest to the tightest.
%nonassoc '::'
%right '->' 'LET' 'IF' LAMBDA
%right '$'
%left '>>='
%right '||'
%right '&&'
%nonassoc '==' '/=' '<' '<=' '>' '>='
%right ':' '++'
%left '+' '-'
%left '*' '/' 'mod'
%right '^'
%left 'compose' // written as a point
%nonassoc NEGATE

%%

// -------------------------------------------------------------- modules

Module -> Result<ast::Module<'a>, Fault>:
      'MODULE' ModuleName Exports 'WHERE' '{' Body '}' {
          let (imports, declarations) = $6?;
          Ok(ast::Module { name: $2?, exports: $3?, imports, declarations })
      }
    | '{' Body '}' {
          let (imports, declarations) = $2?;
          Ok(ast::Module { name: ast::Name::main(), exports: None, imports, declarations })
      }
    ;

ModuleName -> Result<ast::Name<'a>, Fault>:
      'UPPER' { Ok(ast::Name::of($lexer, $1?)) }
    | ModuleName '.' 'UPPER' { Ok($1?.join($lexer, $3?)) }
    ;

Exports -> Result<Option<Vec<ast::Export<'a>>>, Fault>:
      %empty { Ok(None) }
    | '(' ')' { Ok(Some(vec![])) }
    | '(' ExportList ')' { Ok(Some($2?)) }
    | '(' ExportList ',' ')' { Ok(Some($2?)) }
    ;

ExportList -> Result<Vec<ast::Export<'a>>, Fault>:
      Export { Ok(vec![$1?]) }
    | ExportList ',' Export { flattenr($1, $3) }
    ;

Export -> Result<ast::Export<'a>, Fault>:
      Variable { Ok(ast::Export::Value($1?)) }
    | 'UPPER' { Ok(ast::Export::Type(ast::Name::of($lexer, $1?), ast::Which::None)) }
    | 'UPPER' '(' '..' ')' { Ok(ast::Export::Type(ast::Name::of($lexer, $1?), ast::Which::All)) }
    | 'UPPER' '(' Names ')' { Ok(ast::Export::Type(ast::Name::of($lexer, $1?), ast::Which::Some($3?))) }
    | 'MODULE' ModuleName { Ok(ast::Export::Module($2?)) }
    ;

Names -> Result<Vec<ast::Name<'a>>, Fault>:
      Name { Ok(vec![$1?]) }
    | Names ',' Name { flattenr($1, $3) }
    ;

Name -> Result<ast::Name<'a>, Fault>
    : 'LOWER' { Ok(ast::Name::of($lexer, $1?)) }
    | 'UPPER' { Ok(ast::Name::of($lexer, $1?)) }
    ;

Body -> Result<(Vec<ast::Import<'a>>, Vec<ast::Declaration<'a>>), Fault>:
      Imports ';' Declarations { Ok(($1?, $3?)) }
    | Imports { Ok(($1?, vec![])) }
    | Declarations { Ok((vec![], $1?)) }
    ;

Imports -> Result<Vec<ast::Import<'a>>, Fault>:
      Import { Ok(vec![$1?]) }
    | Imports ';' Import { flattenr($1, $3) }
    ;

Import -> Result<ast::Import<'a>, Fault>:
      'IMPORT' ModuleName Exports { Ok(ast::Import::open($2?, $3?)) }
    | 'IMPORT' 'QUALIFIED' ModuleName 'AS' 'UPPER' {
          Ok(ast::Import::qualified($3?, ast::Name::of($lexer, $5?)))
      }
    | 'IMPORT' ModuleName 'HIDING' '(' Names ')' { Ok(ast::Import::hiding($2?, $5?)) }
    ;

// --------------------------------------------------------- declarations

Declarations -> Result<Vec<ast::Declaration<'a>>, Fault>:
      %empty { Ok(vec![]) }
    | Declaration { Ok(vec![$1?]) }
    | Declarations ';' Declaration { flattenr($1, $3) }
    | Declarations ';' { $1 }
    ;

Declaration -> Result<ast::Declaration<'a>, Fault>:
      'DATA' TypeHead '=' Constructors Deriving {
          let (name, variables) = $2?;
          Ok(ast::Declaration::Data { name, variables, constructors: $4?, deriving: $5? })
      }
    | 'NEWTYPE' TypeHead '=' Constructor Deriving {
          let (name, variables) = $2?;
          Ok(ast::Declaration::Newtype { name, variables, constructor: $4?, deriving: $5? })
      }
    | 'TYPE' TypeHead '=' Type {
          let (name, variables) = $2?;
          Ok(ast::Declaration::Synonym { name, variables, meaning: $4? })
      }
    | 'CLASS' Context TypeHead 'WHERE' '{' Bindings '}' {
          let (name, variables) = $3?;
          Ok(ast::Declaration::Class { context: $2?, name, variables, members: $6? })
      }
    | 'INSTANCE' Context 'UPPER' AtomicType 'WHERE' '{' Bindings '}' {
          Ok(ast::Declaration::Instance {
              context: $2?,
              class: ast::Name::of($lexer, $3?),
              of: $4?,
              members: $7?,
          })
      }
    | Fixity 'INT' Operators {
          Ok(ast::Declaration::Fixity($1?, level($lexer, $2?)?, $3?))
      }
    | Binding { Ok(ast::Declaration::Binding($1?)) }
    ;

TypeHead -> Result<(ast::Name<'a>, Vec<ast::Name<'a>>), Fault>:
      'UPPER' TypeVariables { Ok((ast::Name::of($lexer, $1?), $2?)) }
    ;

TypeVariables -> Result<Vec<ast::Name<'a>>, Fault>:
      %empty { Ok(vec![]) }
    | TypeVariables 'LOWER' { flattenr($1, Ok(ast::Name::of($lexer, $2?))) }
    ;

Context -> Result<Vec<ast::Constraint<'a>>, Fault>:
      %empty { Ok(vec![]) }
    | '(' Constraints ')' '=>' { $2 }
    ;

Constraints -> Result<Vec<ast::Constraint<'a>>, Fault>:
      Constraint { Ok(vec![$1?]) }
    | Constraints ',' Constraint { flattenr($1, $3) }
    ;

Constraint -> Result<ast::Constraint<'a>, Fault>:
      'UPPER' 'LOWER' { Ok(ast::Constraint::of(ast::Name::of($lexer, $1?), ast::Name::of($lexer, $2?))) }
    ;

Constructors -> Result<Vec<ast::Constructor<'a>>, Fault>:
      Constructor { Ok(vec![$1?]) }
    | Constructors '|' Constructor { flattenr($1, $3) }
    ;

Constructor -> Result<ast::Constructor<'a>, Fault>:
      'UPPER' AtomicTypes { Ok(ast::Constructor::plain(ast::Name::of($lexer, $1?), $2?)) }
    | 'UPPER' '{' Fields '}' { Ok(ast::Constructor::record(ast::Name::of($lexer, $1?), $3?)) }
    ;

Fields -> Result<Vec<ast::Field<'a>>, Fault>:
      Field { Ok(vec![$1?]) }
    | Fields ',' Field { flattenr($1, $3) }
    ;

Field -> Result<ast::Field<'a>, Fault>:
      'LOWER' '::' Type { Ok(ast::Field { name: ast::Name::of($lexer, $1?), of: $3? }) }
    ;

Deriving -> Result<Vec<ast::Name<'a>>, Fault>:
      %empty { Ok(vec![]) }
    | 'DERIVING' 'UPPER' { Ok(vec![ast::Name::of($lexer, $2?)]) }
    | 'DERIVING' '(' Names ')' { $3 }
    ;

Fixity -> Result<ast::Fixity, Fault>:
      'INFIX' { Ok(ast::Fixity::None) }
    | 'INFIXL' { Ok(ast::Fixity::Left) }
    | 'INFIXR' { Ok(ast::Fixity::Right) }
    ;

Operators -> Result<Vec<ast::Name<'a>>, Fault>:
      'OPERATOR' { Ok(vec![ast::Name::of($lexer, $1?)]) }
    | Operators ',' 'OPERATOR' { flattenr($1, Ok(ast::Name::of($lexer, $3?))) }
    ;

// ---------------------------------------------------------------- types

Type -> Result<&'a ast::Type<'a>, Fault>:
      AppliedType { $1 }
    | AppliedType '->' Type { Ok(arena.function($1?, $3?)) }
    ;

AppliedType -> Result<&'a ast::Type<'a>, Fault>:
      AtomicType { $1 }
    | AppliedType AtomicType { Ok(arena.applied($1?, $2?)) }
    ;

AtomicTypes -> Result<Vec<&'a ast::Type<'a>>, Fault>:
      %empty { Ok(vec![]) }
    | AtomicTypes AtomicType { flattenr($1, $2) }
    ;

AtomicType -> Result<&'a ast::Type<'a>, Fault>:
      'UPPER' { Ok(arena.named(ast::Name::of($lexer, $1?))) }
    | 'LOWER' { Ok(arena.variable(ast::Name::of($lexer, $1?))) }
    | '(' ')' { Ok(arena.unit()) }
    | '(' Type ')' { $2 }
    | '(' Type ',' Types ')' { Ok(arena.tuple($2?, $4?)) }
    | '[' Type ']' { Ok(arena.list($2?)) }
    ;

Types -> Result<Vec<&'a ast::Type<'a>>, Fault>:
      Type { Ok(vec![$1?]) }
    | Types ',' Type { flattenr($1, $3) }
    ;

// ------------------------------------------------------------- bindings

Bindings -> Result<Vec<ast::Binding<'a>>, Fault>:
      %empty { Ok(vec![]) }
    | Binding { Ok(vec![$1?]) }
    | Bindings ';' Binding { flattenr($1, $3) }
    | Bindings ';' { $1 }
    ;

Binding -> Result<ast::Binding<'a>, Fault>:
      Variables '::' Context Type { Ok(ast::Binding::Signature($1?, $3?, $4?)) }
    | Variable Patterns RightSide Where { Ok(ast::Binding::clause($1?, $2?, $3?, $4?)) }
    ;

Variables -> Result<Vec<ast::Name<'a>>, Fault>:
      Variable { Ok(vec![$1?]) }
    | Variables ',' Variable { flattenr($1, $3) }
    ;

Variable -> Result<ast::Name<'a>, Fault>:
      'LOWER' { Ok(ast::Name::of($lexer, $1?)) }
    | '(' 'OPERATOR' ')' { Ok(ast::Name::of($lexer, $2?)) }
    ;

RightSide -> Result<ast::RightSide<'a>, Fault>:
      '=' Expression { Ok(ast::RightSide::Plain($2?)) }
    | Guards { Ok(ast::RightSide::Guarded($1?)) }
    ;

Guards -> Result<Vec<(&'a ast::Expression<'a>, &'a ast::Expression<'a>)>, Fault>:
      Guard { Ok(vec![$1?]) }
    | Guards Guard { flattenr($1, $2) }
    ;

Guard -> Result<(&'a ast::Expression<'a>, &'a ast::Expression<'a>), Fault>:
      '|' Expression '=' Expression { Ok(($2?, $4?)) }
    ;

Where -> Result<Vec<ast::Binding<'a>>, Fault>:
      %empty { Ok(vec![]) }
    | 'WHERE' '{' Bindings '}' { $3 }
    ;

// ------------------------------------------------------------- patterns

Patterns -> Result<Vec<&'a ast::Pattern<'a>>, Fault>:
      %empty { Ok(vec![]) }
    | Patterns AtomicPattern { flattenr($1, $2) }
    ;

Pattern -> Result<&'a ast::Pattern<'a>, Fault>:
      AtomicPattern { $1 }
    | 'UPPER' AtomicPattern Patterns { Ok(arena.constructed(ast::Name::of($lexer, $1?), $2?, $3?)) }
    | AtomicPattern ':' Pattern { Ok(arena.cons($1?, $3?)) }
    | '-' 'INT' %prec NEGATE { Ok(arena.negative($lexer, $2?)?) }
    ;

AtomicPattern -> Result<&'a ast::Pattern<'a>, Fault>:
      'LOWER' { Ok(arena.bound(ast::Name::of($lexer, $1?))) }
    | 'LOWER' '@' AtomicPattern { Ok(arena.alias(ast::Name::of($lexer, $1?), $3?)) }
    | 'UPPER' { Ok(arena.constant(ast::Name::of($lexer, $1?))) }
    | '_' { Ok(arena.anything()) }
    | '~' AtomicPattern { Ok(arena.lazy($2?)) }
    | Literal { Ok(arena.literal_pattern($1?)) }
    | '(' ')' { Ok(arena.unit_pattern()) }
    | '(' Pattern ')' { $2 }
    | '(' Pattern ',' PatternList ')' { Ok(arena.tuple_pattern($2?, $4?)) }
    | '[' ']' { Ok(arena.list_pattern(vec![])) }
    | '[' PatternList ']' { Ok(arena.list_pattern($2?)) }
    ;

PatternList -> Result<Vec<&'a ast::Pattern<'a>>, Fault>:
      Pattern { Ok(vec![$1?]) }
    | PatternList ',' Pattern { flattenr($1, $3) }
    ;

// ---------------------------------------------------------- expressions

Expression -> Result<&'a ast::Expression<'a>, Fault>:
      Operation { $1 }
    | Operation '::' Context Type { Ok(arena.typed($1?, $3?, $4?)) }
    ;

Operation -> Result<&'a ast::Expression<'a>, Fault>:
      Operation '$' Operation { Ok(arena.apply($1?, $3?)) }
    | Operation '>>=' Operation { Ok(arena.binary(ast::Operator::Bind, $1?, $3?)) }
    | Operation '||' Operation { Ok(arena.binary(ast::Operator::Or, $1?, $3?)) }
    | Operation '&&' Operation { Ok(arena.binary(ast::Operator::And, $1?, $3?)) }
    | Operation '==' Operation { Ok(arena.binary(ast::Operator::Equal, $1?, $3?)) }
    | Operation '/=' Operation { Ok(arena.binary(ast::Operator::Unequal, $1?, $3?)) }
    | Operation '<' Operation { Ok(arena.binary(ast::Operator::Less, $1?, $3?)) }
    | Operation '<=' Operation { Ok(arena.binary(ast::Operator::AtMost, $1?, $3?)) }
    | Operation '>' Operation { Ok(arena.binary(ast::Operator::Greater, $1?, $3?)) }
    | Operation '>=' Operation { Ok(arena.binary(ast::Operator::AtLeast, $1?, $3?)) }
    | Operation ':' Operation { Ok(arena.binary(ast::Operator::Cons, $1?, $3?)) }
    | Operation '++' Operation { Ok(arena.binary(ast::Operator::Join, $1?, $3?)) }
    | Operation '+' Operation { Ok(arena.binary(ast::Operator::Add, $1?, $3?)) }
    | Operation '-' Operation { Ok(arena.binary(ast::Operator::Subtract, $1?, $3?)) }
    | Operation '*' Operation { Ok(arena.binary(ast::Operator::Multiply, $1?, $3?)) }
    | Operation '/' Operation { Ok(arena.binary(ast::Operator::Divide, $1?, $3?)) }
    | Operation 'mod' Operation { Ok(arena.binary(ast::Operator::Remainder, $1?, $3?)) }
    | Operation '^' Operation { Ok(arena.binary(ast::Operator::Power, $1?, $3?)) }
    | Operation 'compose' Operation { Ok(arena.binary(ast::Operator::Compose, $1?, $3?)) }
    | '-' Operation %prec NEGATE { Ok(arena.negate($2?)) }
    | LAMBDA AtomicPattern Patterns '->' Expression { Ok(arena.lambda($2?, $3?, $5?)) }
    | 'LET' '{' Bindings '}' 'IN' Expression %prec 'LET' { Ok(arena.let_in($3?, $6?)) }
    | 'IF' Expression 'THEN' Expression 'ELSE' Expression %prec 'IF' {
          Ok(arena.choose($2?, $4?, $6?))
      }
    | 'CASE' Expression 'OF' '{' Alternatives '}' { Ok(arena.case($2?, $5?)) }
    | 'DO' '{' Steps '}' { Ok(arena.steps($3?)) }
    | Application { $1 }
    ;

Application -> Result<&'a ast::Expression<'a>, Fault>:
      Atom { $1 }
    | Application Atom { Ok(arena.apply($1?, $2?)) }
    ;

Atom -> Result<&'a ast::Expression<'a>, Fault>:
      Variable { Ok(arena.value($1?)) }
    | 'UPPER' { Ok(arena.constructor(ast::Name::of($lexer, $1?))) }
    | ModuleName '.' 'LOWER' { Ok(arena.value($1?.join($lexer, $3?))) }
    | Literal { Ok(arena.literal($1?)) }
    | '(' ')' { Ok(arena.nothing()) }
    | '(' Expression ')' { $2 }
    | '(' Expression ',' Expressions ')' { Ok(arena.tuple_of($2?, $4?)) }
    | '[' ']' { Ok(arena.list_of(vec![])) }
    | '[' Expressions ']' { Ok(arena.list_of($2?)) }
    | '[' Expression '..' ']' { Ok(arena.range($2?, None)) }
    | '[' Expression '..' Expression ']' { Ok(arena.range($2?, Some($4?))) }
    | '[' Expression '|' Qualifiers ']' { Ok(arena.comprehension($2?, $4?)) }
    ;

Expressions -> Result<Vec<&'a ast::Expression<'a>>, Fault>:
      Expression { Ok(vec![$1?]) }
    | Expressions ',' Expression { flattenr($1, $3) }
    ;

Qualifiers -> Result<Vec<ast::Step<'a>>, Fault>:
      Step { Ok(vec![$1?]) }
    | Qualifiers ',' Step { flattenr($1, $3) }
    ;

Steps -> Result<Vec<ast::Step<'a>>, Fault>:
      Step { Ok(vec![$1?]) }
    | Steps ';' Step { flattenr($1, $3) }
    | Steps ';' { $1 }
    ;

Step -> Result<ast::Step<'a>, Fault>:
      Expression { Ok(ast::Step::Do($1?)) }
    | Pattern '<-' Expression { Ok(ast::Step::Bind($1?, $3?)) }
    | 'LET' '{' Bindings '}' { Ok(ast::Step::Let($3?)) }
    ;

Alternatives -> Result<Vec<ast::Alternative<'a>>, Fault>:
      Alternative { Ok(vec![$1?]) }
    | Alternatives ';' Alternative { flattenr($1, $3) }
    | Alternatives ';' { $1 }
    ;

Alternative -> Result<ast::Alternative<'a>, Fault>:
      Pattern '->' Expression Where { Ok(ast::Alternative::plain($1?, $3?, $4?)) }
    | Pattern ArrowGuards Where { Ok(ast::Alternative::guarded($1?, $2?, $3?)) }
    ;

ArrowGuards -> Result<Vec<(&'a ast::Expression<'a>, &'a ast::Expression<'a>)>, Fault>:
      '|' Expression '->' Expression { Ok(vec![($2?, $4?)]) }
    | ArrowGuards '|' Expression '->' Expression { flattenr($1, Ok(($3?, $5?))) }
    ;

Literal -> Result<ast::Literal<'a>, Fault>:
      'INT' { integer($lexer, $1?) }
    | 'FLOAT' { float($lexer, $1?) }
    | 'CHAR' { character($lexer, $1?) }
    | 'STRING' { Ok(ast::Literal::String($lexer.span_str($1?.span()))) }
    ;

// Anything that the scanner doesn't know ends here, so that it is told.
Unmatched -> (): 'UNMATCHED' { };

%%
// Any functions here are in scope for all the actions above.

use crate::{ast, Fault};

type Lexeme = lrlex::DefaultLexeme<u32>;

fn flattenr<T>(list: Result<Vec<T>, Fault>, item: Result<T, Fault>) -> Result<Vec<T>, Fault> {
    let mut list = list?;
    list.push(item?);
    Ok(list)
}

fn level<'a>(lexer: &'a dyn NonStreamingLexer<'a>, digits: Lexeme) -> Result<u8, Fault> {
    match lexer.span_str(digits.span()).parse() {
        Ok(level @ 0..=9) => Ok(level),
        _ => Err(Fault::Level(digits.span())),
    }
}
