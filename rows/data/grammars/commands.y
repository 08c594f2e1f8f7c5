// The command language of a job scheduler: a shell with functions,
// tests, arithmetic, here-documents, arrays and scheduled blocks.
//
// The lexer splits a word at its expansions, so a word is a row of
// pieces that stand close together; BLANK stands between two words.

%start script
%token BLANK NEWLINE
%token NAME           /* a name, where an assignment or a function may begin */
%token LITERAL        /* a piece of a word without quotes */
%token SINGLE_QUOTED  /* 'all of it' */
%token DOUBLE_START DOUBLE_TEXT DOUBLE_END
%token HERE_START HERE_TEXT HERE_END
%token IO_NUMBER NUMBER TIME_OF_DAY

%token IF THEN ELIF ELSE FI FOR IN SELECT WHILE UNTIL DO DONE CASE ESAC FUNCTION TIME
%token AT EVERY AFTER ON RETRY TIMEOUT

%epp NEWLINE "end of the line"
%epp HERE_START "<<"
%epp DOUBLE_START "a quote (\")"
%epp AT 'at'
%avoid_insert BLANK NEWLINE LITERAL SINGLE_QUOTED

// What joins commands.
%left ';' '&' NEWLINE
%left '&&' '||'
%right BANG
%left '|' '|&'
%nonassoc REDIRECTED

// Arithmetic, inside $(( and )).
%right '=' '+=' '-='
%right '?' ':'
%left 'or'
%left 'and'
%left 'bitor'
%left 'xor'
%left 'bitand'
%left '==' '!='
%left '<' '>' '<=' '>='
%left 'shl' 'shr'
%left '+' '-'
%left '*' '/' '%'
%right '**'
%right SIGN 'not'

// Tests, inside [[ and ]].
%left TEST_OR
%left TEST_AND
%right TEST_NOT

%expect 3
%expect-rr 0

%%

script: breaks | breaks list breaks | breaks list separator breaks ;

breaks: | breaks NEWLINE ;
some_breaks: NEWLINE | some_breaks NEWLINE ;

list
    : chain
    | list separator breaks chain
    ;

separator: ';' | '&' | NEWLINE ;

chain
    : pipeline
    | chain '&&' breaks pipeline
    | chain '||' breaks pipeline
    ;

pipeline
    : stages
    | '!' BLANK stages %prec BANG
    | TIME BLANK stages
    ;

stages
    : command
    | stages '|' breaks command
    | stages '|&' breaks command
    ;

command
    : simple_command
    | compound_command
    | compound_command redirections  %prec REDIRECTED
    | function_definition
    | scheduled_command
    ;

// --- simple commands ---

simple_command
    : prefix
    | prefix BLANK words_and_redirections
    | words_and_redirections
    ;

prefix
    : assignment
    | redirection
    | prefix BLANK assignment
    | prefix BLANK redirection
    ;

words_and_redirections
    : word
    | words_and_redirections BLANK word
    | words_and_redirections BLANK redirection
    ;

assignment
    : NAME '='
    | NAME '=' word
    | NAME '+=' word
    | NAME '[' arithmetic ']' '=' word
    | NAME '=' '(' array_words ')'
    ;

array_words
    : blanks
    | blanks word_list blanks
    ;

blanks: | blanks BLANK | blanks NEWLINE ;

word_list
    : word
    | word_list BLANK word
    | word_list NEWLINE word
    ;

redirections
    : redirection
    | redirections BLANK redirection
    ;

redirection
    : redirection_sign optional_blank word
    | IO_NUMBER redirection_sign optional_blank word
    | '{' NAME '}' redirection_sign optional_blank word
    | here_document
    | IO_NUMBER here_document
    ;

redirection_sign: '<' | '>' | '>>' | '>|' | '<>' | '<&' | '>&' | '&>' | '<<<' ;

here_document
    : HERE_START word here_pieces HERE_END
    ;

here_pieces
    : %empty
    | here_pieces HERE_TEXT
    | here_pieces expansion
    ;

optional_blank: | BLANK ;

// --- words ---

word
    : piece
    | word piece
    ;

piece
    : LITERAL
    | NAME
    | NUMBER
    | SINGLE_QUOTED
    | DOUBLE_START double_pieces DOUBLE_END
    | expansion
    | glob
    | '~' | '~' NAME
    | '{' brace_items '}'
    | '{' NUMBER '..' NUMBER '}'
    ;

double_pieces
    : %empty
    | double_pieces DOUBLE_TEXT
    | double_pieces expansion
    ;

glob: '*' | '?' | '[' LITERAL ']' | '[!' LITERAL ']' ;

brace_items
    : brace_item ',' brace_item
    | brace_items ',' brace_item
    ;

brace_item: %empty | word ;

expansion
    : '$' NAME
    | '$' NUMBER
    | '$' special
    | '${' parameter '}'
    | '${' '#' parameter '}'
    | '${' parameter default_sign '}'
    | '${' parameter default_sign word '}'
    | '${' parameter trim_sign word '}'
    | '${' parameter '/' word '}'
    | '${' parameter '/' word '/' word '}'
    | '${' parameter ':' arithmetic '}'
    | '${' parameter ':' arithmetic ':' arithmetic '}'
    | '$(' script ')'
    | '`' script '`'
    | '$((' arithmetic '))'
    | '<(' script ')'
    | '>(' script ')'
    ;

special: '@' | '*' | '#' | '?' | '-' | '$' | '!' ;

parameter
    : NAME
    | NUMBER
    | special
    | NAME '[' arithmetic ']'
    | NAME '[' '@' ']'
    ;

default_sign: '-' | ':-' | '=' | ':=' | '+' | ':+' | '?' | ':?' ;

trim_sign: '#' | '##' | '%' | '%%' ;

// --- compound commands ---

compound_command
    : '{' blank_or_breaks list separator breaks '}'
    | '(' script ')'
    | '((' arithmetic '))'
    | '[[' BLANK test BLANK ']]'
    | IF condition THEN body else_parts FI
    | WHILE condition DO body DONE
    | UNTIL condition DO body DONE
    | FOR BLANK NAME separator_or_breaks DO body DONE
    | FOR BLANK NAME BLANK IN separator_or_breaks DO body DONE
    | FOR BLANK NAME BLANK IN BLANK word_list separator_or_breaks DO body DONE
    | FOR BLANK '((' optional_arithmetic ';' optional_arithmetic ';' optional_arithmetic '))' separator_or_breaks DO body DONE
    | SELECT BLANK NAME BLANK IN BLANK word_list separator_or_breaks DO body DONE
    | CASE BLANK word BLANK IN breaks cases ESAC
    ;

blank_or_breaks: BLANK | some_breaks ;

separator_or_breaks: ';' breaks | some_breaks ;

condition: blank_or_breaks list separator breaks ;

body: blank_or_breaks list separator breaks ;

else_parts
    : %empty
    | ELSE body
    | ELIF condition THEN body else_parts
    ;

cases
    : %empty
    | cases case_patterns ')' breaks case_end breaks
    | cases case_patterns ')' breaks list case_end breaks
    | cases case_patterns ')' breaks list separator breaks case_end breaks
    ;

case_patterns
    : word
    | '(' word
    | case_patterns '|' word
    ;

case_end: ';;' | ';&' | ';;&' ;

function_definition
    : NAME '()' blank_or_breaks compound_command
    | FUNCTION BLANK NAME blank_or_breaks compound_command
    | FUNCTION BLANK NAME '()' blank_or_breaks compound_command
    ;

// --- what the scheduler adds ---

scheduled_command
    : AT BLANK TIME_OF_DAY options BLANK compound_command
    | EVERY BLANK duration options BLANK compound_command
    | AFTER BLANK job_names options BLANK compound_command
    | ON BLANK NAME options BLANK compound_command
    ;

duration
    : NUMBER
    | NUMBER LITERAL
    ;

job_names
    : NAME
    | job_names ',' NAME
    ;

options
    : %empty
    | options BLANK RETRY BLANK NUMBER
    | options BLANK TIMEOUT BLANK duration
    ;

// --- tests ---

test
    : test BLANK '&&' BLANK test  %prec TEST_AND
    | test BLANK '||' BLANK test  %prec TEST_OR
    | '!' BLANK test              %prec TEST_NOT
    | '(' test ')'
    | word
    | test_sign BLANK word
    | word BLANK comparison BLANK word
    ;

test_sign: '-e' | '-f' | '-d' | '-r' | '-w' | '-x' | '-s' | '-z' | '-n' | '-v' ;

comparison
    : '=' | '==' | '!=' | '=~' | '<' | '>'
    | '-eq' | '-ne' | '-lt' | '-le' | '-gt' | '-ge'
    | '-nt' | '-ot'
    ;

// --- arithmetic ---

optional_arithmetic: | arithmetic ;

arithmetic
    : NUMBER
    | NAME
    | expansion
    | NAME '[' arithmetic ']'
    | '(' arithmetic ')'
    | NAME '=' arithmetic
    | NAME '+=' arithmetic
    | NAME '-=' arithmetic
    | NAME '++'
    | NAME '--'
    | arithmetic '?' arithmetic ':' arithmetic
    | arithmetic 'or' arithmetic
    | arithmetic 'and' arithmetic
    | arithmetic 'bitor' arithmetic
    | arithmetic 'xor' arithmetic
    | arithmetic 'bitand' arithmetic
    | arithmetic '==' arithmetic
    | arithmetic '!=' arithmetic
    | arithmetic '<' arithmetic
    | arithmetic '>' arithmetic
    | arithmetic '<=' arithmetic
    | arithmetic '>=' arithmetic
    | arithmetic 'shl' arithmetic
    | arithmetic 'shr' arithmetic
    | arithmetic '+' arithmetic
    | arithmetic '-' arithmetic
    | arithmetic '*' arithmetic
    | arithmetic '/' arithmetic
    | arithmetic '%' arithmetic
    | arithmetic '**' arithmetic
    | '-' arithmetic %prec SIGN
    | '+' arithmetic %prec SIGN
    | 'not' arithmetic
    ;
