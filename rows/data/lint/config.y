/* Settings of a program, in sections:
 *
 *     server "main" {
 *         port = 8080;
 *         hosts = ["a", "b"];
 *     }
 */
%code top {
#define _GNU_SOURCE
}
%code {
static int yylex(void);
static void yyerror(const char *message);
static const char *const brackets = "}]";
static const char quote = '\'';
}

%define parse.trace
%define api.value.type union
%expect 0

%token<char *> NAME
%token<char *> STRING "text"
%token<long> NUMBER "number"
%token TRUE_WORD "true" FALSE_WORD "false"
%token INCLUDE '\n' "the end of the line"
%type<struct value *> value list elements
%type<int> unit sign

%nonassoc '\\'

%%
file: lines
lines: %empty | lines line
line: setting ends
    | section
    | INCLUDE STRING ends               { include($2); }
    | error ends                        { yyerrok; }
    ;
ends: ';' | '\n'

section: NAME STRING '{' { enter($1, $2); } lines '}' { leave(); }
       | NAME '{' { enter($1, NULL); } lines '}' { leave(); }

setting: NAME '=' value                 { set($NAME, $value); }
       | NAME '+' '=' value             { add($NAME, $value); }
       | '\x7e' NAME  /* a tilde */     { unset($NAME); }
       ;

value: value '\\' value                 { $$ = joined($1, $3); }
     | STRING                           { $$ = text_value($1); }
     | sign[minus] NUMBER unit[factor]  { $$ = number_value(($minus ? -1 : 1) * $NUMBER * $factor); }
     | "true"                           { $$ = truth_value(1); }
     | "false"                          { $$ = truth_value(0); }
     | list
     | '<' { /* a "<" begins a path: <%s> */ } NAME '>'
          { $$ = path_value($NAME); }

sign: %empty { $$ = 0; } | '-' { $$ = 1; }
unit: %empty { $$ = 1; } | '%' { $$ = -100; } | 'k' { $$ = 1000; } | 'M' { $$ = 1000 * 1000; }

list: '[' elements ']'                  { $$ = $2; }
    | '[' ']'                           { $$ = list_value(); }
elements: value                         { $$ = append(list_value(), $1); }
        | elements ',' value            { $$ = append($1, $3); }
%%
static void yyerror(const char *message) { fprintf(stderr, "%s\n", message); }
