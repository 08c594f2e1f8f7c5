/* Patterns and sums in one language: regular expressions with names and
   counts, tests of texts against them, and numbers worked out of what
   they match.

       let year = /(?<y>[0-9]{4})/;
       "in 1984" ~ year ? y + 1 : 0                                     */

%start Script
%parse-param env: &mut Env
%parse-generics 'lexer, 'input: 'lexer

%epp "INT" "a whole number"
%epp "REAL" 'a number'
%epp "IDENT" "a name"
%epp "TEXT" "a text in \"quotes\""
%epp '~' "~ (matches)"
%epp '!~' '!~ (doesn\'t match)'
%epp "CHAR" "a character"
%epp "CLASS_CHAR" "a character"

%avoid_insert "INT" "REAL" "IDENT" "TEXT"
%avoid_insert "CHAR" "CLASS_CHAR"

%expect-unused "COMMENT" Broken

/* Sums. */
%right '=' '+=' '-=' '*=' '/='
%right '?' ':'
%left '||'
%left '&&'
%nonassoc '~' '!~'
%nonassoc '==' '!=' '<' '<=' '>' '>='
%left 'to' 'step'
%left '+' '-'
%left '*' '/' '%' 'div'
%right UNARY '!'
%right '^'
%left '\!' // the factorial
%left '.' '[' '('

/* Patterns. */
%left '|'
%left JOINED
%nonassoc 'REPEAT'

%token UNARY JOINED
%token 'COMMENT'

%%

/* ---- scripts ---- */

Script -> Result<Vec<Step>, Fault>:
    Steps { $1 }
  | Steps Step { pushed($1, $2) }
  ;

Steps -> Result<Vec<Step>, Fault>:
    { Ok(Vec::new()) }
  | Steps Step ';' { pushed($1, $2) }
  | Steps ';' { $1 }
  ;

Step -> Result<Step, Fault>:
    'let' 'IDENT' '=' Sum { Ok(Step::Let(name($lexer, $2)?, $4?)) }
  | 'let' 'IDENT' '(' Parameters ')' '=' Sum {
        let name = name($lexer, $2)?;
        env.declare(&name, $4.as_ref().map_or(0, Vec::len))?;
        Ok(Step::Function(name, $4?, $7?))
    }
  | 'use' Path { Ok(Step::Use($2?)) }
  | 'use' Path 'as' 'IDENT' { Ok(Step::UseAs($2?, name($lexer, $4)?)) }
  | 'print' Sums { Ok(Step::Print($2?)) }
  | 'assert' Sum { Ok(Step::Assert($2?, None)) }
  | 'assert' Sum ',' 'TEXT' { Ok(Step::Assert($2?, Some(text($lexer, $4)?))) }
  | 'for' 'IDENT' 'in' Sum Block { Ok(Step::For(name($lexer, $2)?, $4?, $5?)) }
  | 'while' Sum Block { Ok(Step::While($2?, $3?)) }
  | 'match' Sum '{' Arms '}' { Ok(Step::Match($2?, $4?)) }
  | Sum { Ok(Step::Sum($1?)) }
  ;

Block -> Result<Vec<Step>, Fault>: '{' Script '}' { $2 };

Path -> Result<std::path::PathBuf, Fault>:
    'TEXT' { Ok(text($lexer, $1)?.into()) }
  | Path '/' 'IDENT' { Ok($1?.join(name($lexer, $3)?)) }
  ;

Parameters -> Result<Vec<String>, Fault>:
    { Ok(Vec::new()) }
  | ParameterList { $1 }
  ;

ParameterList -> Result<Vec<String>, Fault>:
    'IDENT' { Ok(vec![name($lexer, $1)?]) }
  | ParameterList ',' 'IDENT' { pushed($1, name($lexer, $3)) }
  ;

Arms -> Result<Vec<(Pattern, Vec<Step>)>, Fault>:
    Arm { Ok(vec![$1?]) }
  | Arms Arm { pushed($1, $2) }
  ;

Arm -> Result<(Pattern, Vec<Step>), Fault>:
    PatternLiteral '=>' Block { Ok(($1?, $3?)) }
  | PatternLiteral '=>' Sum ',' { Ok(($1?, vec![Step::Sum($3?)])) }
  | 'else' '=>' Block { Ok((Pattern::anything(), $3?)) }
  ;

/* ---- sums ---- */

Sums -> Result<Vec<Sum>, Fault>:
    Sum { Ok(vec![$1?]) }
  | Sums ',' Sum { pushed($1, $3) }
  ;

Sum -> Result<Sum, Fault>:
    Place '=' Sum { Ok(Sum::Assign($1?, Op::None, $3?.into())) }
  | Place '+=' Sum { Ok(Sum::Assign($1?, Op::Add, $3?.into())) }
  | Place '-=' Sum { Ok(Sum::Assign($1?, Op::Sub, $3?.into())) }
  | Place '*=' Sum { Ok(Sum::Assign($1?, Op::Mul, $3?.into())) }
  | Place '/=' Sum { Ok(Sum::Assign($1?, Op::Div, $3?.into())) }
  | Sum '?' Sum ':' Sum { Ok(Sum::choose($1?, $3?, $5?)) }
  | Sum '||' Sum { Ok(Sum::either($1?, $3?)) }
  | Sum '&&' Sum { Ok(Sum::both($1?, $3?)) }
  | Sum '~' Sum { Ok(Sum::matches($1?, $3?)) }
  | Sum '!~' Sum { Ok(Sum::not(Sum::matches($1?, $3?))) }
  | Sum '==' Sum { Ok(Sum::compare($1?, Ordering::Equal, $3?)) }
  | Sum '!=' Sum { Ok(Sum::not(Sum::compare($1?, Ordering::Equal, $3?))) }
  | Sum '<' Sum { Ok(Sum::compare($1?, Ordering::Less, $3?)) }
  | Sum '<=' Sum { Ok(Sum::not(Sum::compare($1?, Ordering::Greater, $3?))) }
  | Sum '>' Sum { Ok(Sum::compare($1?, Ordering::Greater, $3?)) }
  | Sum '>=' Sum { Ok(Sum::not(Sum::compare($1?, Ordering::Less, $3?))) }
  | Sum 'to' Sum { Ok(Sum::range($1?, $3?)) }
  | Sum 'step' Sum { Ok(Sum::stepped($1?, $3?)) }
  | Sum '+' Sum { Ok(Sum::op($1?, Op::Add, $3?)) }
  | Sum '-' Sum { Ok(Sum::op($1?, Op::Sub, $3?)) }
  | Sum '*' Sum { Ok(Sum::op($1?, Op::Mul, $3?)) }
  | Sum '/' Sum { Ok(Sum::op($1?, Op::Div, $3?)) }
  | Sum '%' Sum { Ok(Sum::op($1?, Op::Rem, $3?)) }
  | Sum 'div' Sum { Ok(Sum::op($1?, Op::Quotient, $3?)) }
  | Sum '^' Sum { Ok(Sum::op($1?, Op::Pow, $3?)) }
  | '-' Sum %prec UNARY { Ok(Sum::negative($2?)) }
  | '+' Sum %prec UNARY { $2 }
  | '!' Sum { Ok(Sum::not($2?)) }
  | Sum '\!' { Ok(Sum::factorial($1?)) }
  | Sum '.' 'IDENT' { Ok(Sum::part($1?, name($lexer, $3)?)) }
  | Sum '[' Sum ']' { Ok(Sum::at($1?, $3?)) }
  | Sum '(' ')' { Ok(Sum::call($1?, vec![])) }
  | Sum '(' Sums ')' { Ok(Sum::call($1?, $3?)) }
  | Value { $1 }
  ;

Place -> Result<Place, Fault>:
    'IDENT' { Ok(Place::Name(name($lexer, $1)?)) }
  | Place '[' Sum ']' { Ok(Place::At(Box::new($1?), $3?)) }
  ;

Value -> Result<Sum, Fault>:
    'INT' {
        let lexeme = $1.map_err(|_| Fault::Inserted)?;
        match $lexer.span_str(lexeme.span()).parse::<u64>() {
            Ok(number) => Ok(Sum::Int(number)),
            Err(_) => Err(Fault::TooLarge(lexeme.span())),
        }
    }
  | 'REAL' { Ok(Sum::Real(real($lexer, $1)?)) }
  | 'TEXT' { Ok(Sum::Text(text($lexer, $1)?)) }
  | 'IDENT' { Ok(Sum::Name(name($lexer, $1)?)) }
  | 'pi' { Ok(Sum::Real(std::f64::consts::PI)) }
  | '(' Sum ')' { $2 }
  | '|' Sum '|' { Ok(Sum::absolute($2?)) }
  | '[' ']' { Ok(Sum::List(vec![])) }
  | '[' Sums ']' { Ok(Sum::List($2?)) }
  | PatternLiteral { Ok(Sum::Pattern($1?)) }
  ;

/* ---- patterns ---- */

PatternLiteral -> Result<Pattern, Fault>:
    'OPEN' Pattern 'CLOSE' Flags { Ok($2?.with($4?)) }
  | 'OPEN' 'CLOSE' Flags { Ok(Pattern::empty().with($3?)) }
  ;

Flags -> Result<Flags, Fault>:
    { Ok(Flags::default()) }
  | Flags 'FLAG' { $1?.and($lexer.span_str($2.map_err(|_| Fault::Inserted)?.span())) }
  ;

Pattern -> Result<Pattern, Fault>:
    Pattern '|' Pattern { Ok(Pattern::either($1?, $3?)) }
  | Row { $1 }
  | '|' Pattern { Ok(Pattern::either(Pattern::empty(), $2?)) }
  ;

Row -> Result<Pattern, Fault>:
    Repeated %prec JOINED { $1 }
  | Row Repeated %prec JOINED { Ok(Pattern::joined($1?, $2?)) }
  ;

Repeated -> Result<Pattern, Fault>:
    Atom { $1 }
  | Repeated Repeat %prec 'REPEAT' { Ok(Pattern::repeated($1?, $2?, Greed::Most)) }
  | Repeated Repeat 'LAZY' %prec 'REPEAT' { Ok(Pattern::repeated($1?, $2?, Greed::Least)) }
  ;

Repeat -> Result<(u32, Option<u32>), Fault>:
    'STAR' { Ok((0, None)) }
  | 'PLUS' { Ok((1, None)) }
  | 'MAYBE' { Ok((0, Some(1))) }
  | '{' 'INT' '}' { let n = count($lexer, $2)?; Ok((n, Some(n))) }
  | '{' 'INT' ',' '}' { Ok((count($lexer, $2)?, None)) }
  | '{' ',' 'INT' '}' { Ok((0, Some(count($lexer, $3)?))) }
  | '{' 'INT' ',' 'INT' '}' {
        let (least, most) = (count($lexer, $2)?, count($lexer, $4)?);
        if least <= most { Ok((least, Some(most))) } else { Err(Fault::Counts(least, most)) }
    }
  ;

Atom -> Result<Pattern, Fault>:
    'CHAR' { Ok(Pattern::Char(character($lexer, $1)?)) }
  | 'ANY' { Ok(Pattern::any()) }
  | 'START' { Ok(Pattern::Start) }
  | 'END' { Ok(Pattern::End) }
  | 'BOUNDARY' { Ok(Pattern::Boundary) }
  | 'SHORTHAND' { Ok(Pattern::Class(shorthand($lexer, $1)?)) }
  | 'BACKREF' { env.group($lexer, $1).map(Pattern::Again) }
  | '(' Pattern ')' { Ok(Pattern::Group(None, $2?.into())) }
  | '(' ')' { Ok(Pattern::Group(None, Pattern::empty().into())) }
  | 'GROUP' 'IDENT' '>' Pattern ')' {
        let name = name($lexer, $2)?;
        env.open(&name)?;
        Ok(Pattern::Group(Some(name), $4?.into()))
    }
  | 'PLAIN_GROUP' Pattern ')' { $2 }
  | 'AHEAD' Pattern ')' { Ok(Pattern::Ahead($2?.into(), true)) }
  | 'NOT_AHEAD' Pattern ')' { Ok(Pattern::Ahead($2?.into(), false)) }
  | 'SPLICE' 'IDENT' '}' { env.pattern(&name($lexer, $2)?) }
  | Class { Ok(Pattern::Class($1?)) }
  ;

Class -> Result<Class, Fault>:
    '[' ClassItems ']' { $2 }
  | '[^' ClassItems ']' { Ok($2?.inverse()) }
  ;

ClassItems -> Result<Class, Fault>:
    ClassItem { $1 }
  | ClassItems ClassItem { Ok($1?.or($2?)) }
  | ClassItems '&&' Class { Ok($1?.and($3?)) }
  ;

ClassItem -> Result<Class, Fault>:
    'CLASS_CHAR' { Ok(Class::of(character($lexer, $1)?)) }
  | 'CLASS_CHAR' '-' 'CLASS_CHAR' {
        let (first, last) = (character($lexer, $1)?, character($lexer, $3)?);
        if first <= last { Ok(Class::range(first..=last)) } else { Err(Fault::Range(first, last)) }
    }
  | 'SHORTHAND' { shorthand($lexer, $1) }
  | '[:' 'IDENT' ':]' { Class::named(&name($lexer, $2)?) }
  | Class { $1 }
  ;

/* What the scanner couldn't read. */
Broken -> (): 'BROKEN' { } | 'UNCLOSED' { };

%%

use std::cmp::Ordering;

/// What went wrong in a script.
pub enum Fault { Inserted, TooLarge(Span), Counts(u32, u32), Range(char, char) }

type Lexed = Result<DefaultLexeme<u32>, DefaultLexeme<u32>>;

fn name(lexer: &dyn NonStreamingLexer<u32>, lexeme: Lexed) -> Result<String, Fault> {
    lexeme.map(|l| lexer.span_str(l.span()).to_string()).map_err(|_| Fault::Inserted)
}

fn pushed<T>(list: Result<Vec<T>, Fault>, item: Result<T, Fault>) -> Result<Vec<T>, Fault> {
    let mut list = list?;
    list.push(item?);
    Ok(list)
}
