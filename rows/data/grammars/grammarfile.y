// The grammar files of this reader, as a grammar of themselves: what is read at this stage.
//
// Blanks and comments are no tokens here; a lexer would drop them. It would also have to tell a list's words from
// rules' names by itself, since neither has an end of its own.

%token IDENTIFIER     // a name without a dot
%token DOTTED         // one with dots
%token QUOTED         // in either kind of quotes

%token PERCENT_TOKEN "%start"      // a keyword may be spelt out or have a name
%start File

%%

File: Declarations "%%" Rules;

// There are lists before and behind the start, which may be missing.
Declarations: Lists | Lists "%start" Name Lists;
Lists: | Lists PERCENT_TOKEN Tokens;
Tokens: | Tokens Token;
Token: QUOTED | IDENTIFIER;

Name: IDENTIFIER | DOTTED;

Rules: | Rules Rule;
Rule: Name ':' Body ';';
Body: Production | Body '|' Production;
Production: | Production Token;

// What later stages will read as well:

Later: Declarations "%%" Rules "%%" Programs;
Programs: | Programs 'any character';
Declarations: Declarations Precedence;
Precedence: Direction Tokens;
Direction: "%left" | "%right" | "%nonassoc";
Production: Production '{' Action '}' | Production "%prec" Token | "%empty";
Action: | Action 'no brace' | Action '{' Action '}';
