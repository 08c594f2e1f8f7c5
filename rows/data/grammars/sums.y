%start Sum
%avoid_insert "INTEGER"
%epp "INTEGER" "an integer"
%left '+' '-'
%parse-param depth: u8
%%
Sum -> Result<u64, Box<dyn Error>>:
      Sum '+' Product { Ok(checked($1?, $3?, u64::checked_add)?) }
    | Sum '-' Product { Ok(checked($1?, $3?, u64::checked_sub)?) }
    | Product { $1 }
    ;

Product -> Result<u64, Box<dyn Error>>:
      Product '*' Factor { Ok(checked($1?, $3?, u64::checked_mul)?) }
    | Factor { $1 }
    ;

Factor -> Result<u64, Box<dyn Error>> // a number, or a sum in brackets
    : '(' Sum ')' { $2 }
    | 'INTEGER'
      {
          let v = $1.map_err(|_| "no number")?;
          $lexer.span_str(v.span()).parse().map_err(Into::into)
      }
    ;
%%
type Step = fn(u64, u64) -> Option<u64>;

fn checked(a: u64, b: u64, step: Step) -> Result<u64, &'static str> {
    step(a, b).ok_or("too large")
}
