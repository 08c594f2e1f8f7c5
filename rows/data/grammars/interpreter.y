// A small language with a value for each construct: precedences, actions and their types, and the programs behind them.
%start Program
%actiontype Result<Value, Fault>
%parse-param scope: &'a mut Scope<'input>
%parse-generics 'a, 'input
%expect 1
%expect-rr 0
%expect-unused 'COMMENT'
%epp 'NUMBER' "a number"
%epp 'NAME' "a name"
%epp '=' 'the sign \'=\''
%avoid_insert 'NUMBER' 'NAME'
%avoid_insert 'STRING' // its text is unknown
%token NUMBER NAME STRING COMMENT

/* From the loosest to the tightest. */
%right '='
%left 'or'
%left 'and'
%nonassoc '<' '==' '>'
%left '+' '-'
%left '*' '/'
%right NEGATIVE 'not'
%%

Program: Statements { $1 } ;

Statements:
      Statements Statement { { $1?; $2 } }
    | %empty { Ok(Value::Nothing) }
    ;

Statement
    : Expression ';' { $1 }
    | 'if' Expression Block { if $2?.holds() { $3 } else { Ok(Value::Nothing) } }
    | 'if' Expression Block 'else' Block { if $2?.holds() { $3 } else { $5 } }
    | 'while' Expression Block { scope.repeat($2, $3) }
    | Block
    ;

Block: '{' Statements '}' { scope.inner(|scope| $2) };

Expression
    : NAME '=' Expression { scope.assign($1?.text(), $3?) }
    | Expression 'or' Expression { $1?.or($3?) }
    | Expression 'and' Expression { $1?.and($3?) }
    | Expression '<' Expression { $1?.less($3?) }
    | Expression '==' Expression { $1?.equal($3?) }
    | Expression '>' Expression { $3?.less($1?) }
    | Expression '+' Expression { $1?.add($3?) }
    | Expression '-' Expression { $1?.subtract($3?) }
    | Expression '*' Expression { $1?.multiply($3?) }
    | Expression '/' Expression { $1?.divide($3?) }
    | '-' Expression %prec NEGATIVE { $2?.negative() }
    | 'not' Expression { $2?.not() }
    | '(' Expression ')' { $2 }
    | Literal
    | NAME { scope.value($1?.text()) }
    ;

Literal: NUMBER { number($1) } | STRING { string($1) };
%%

use crate::{Fault, Scope, Value};

/* A number's value. */
fn number(lexeme: Lexeme) -> Result<Value, Fault> {
    lexeme.text().parse().map(Value::Number).map_err(|_| Fault::Number)
}
