// A small shell: commands with arguments, pipes, lists, redirections and compound commands.
%require "3.8"
%define api.pure full
%define parse.error verbose
%locations
%param { struct shell *shell }

%code requires {
#include "shell.h"                      /* struct node, struct shell */
}

%union {
    char *text;
    struct node *node;
    int number;
}

%{
#include <stdlib.h>
static void complain(const char *what); // a "}" in here ends nothing
%}

%token <text> WORD "a word" ASSIGNMENT "an assignment"
%token <number> NUMBER "a number"
%token IF "if" THEN "then" ELSE "else" FI "fi" WHILE "while" DO "do" DONE "done"
%token AND "&&" OR "||" APPEND ">>" '\n' "the end of the line"

%type <node> block commands list pipeline command otherwise simple part redirection
%type <number> source

%destructor { free($$); } <text>
%destructor { drop_node($$); } <node>
%printer { fprintf(yyo, "'%s'", $$); } <text>

%left "&&" "||"
%start script

%%

script
  : %empty
  | script line

line
  : '\n'
  | commands '\n'   { run(shell, $commands); drop_node($commands); }
  | block '\n'      { run(shell, $block); drop_node($block); }
  | error '\n'      { complain("'{' and \"}\" have to be balanced"); yyerrok; }

block: commands ';' | commands '&'   { $$ = in_background($1); }

commands
  : list
  | commands[first] ';' list[next]   { $$ = sequence($first, $next); }
  | commands[first] '&' list[next]   { $$ = sequence(in_background($first), $next); }

list
  : pipeline
  | list[left] "&&" list[right]      { $$ = both($left, $right); }
  | list[left] OR list[right]        { $$ = either($left, $right); }

pipeline
  : command
  | pipeline '|' { shell->pipes += 1; } command   { $$ = pipe_between($1, $4); }

command
  : simple
  | '(' commands ')'                              { $$ = in_subshell($2); }
  | IF block THEN block otherwise FI              { $$ = choice($2, $4, $5); }
  | "while" block[condition] "do" { shell->depth++; } block[body] "done"
      { shell->depth--; $$ = loop($condition, $body); }

otherwise
  : %empty         { $$ = NULL; }
  | "else" block   { $$ = $2; }

simple: part | simple part   { $$ = with_part($1, $2); }

part: WORD { $$ = word_node($1); } | ASSIGNMENT { $$ = assignment_node($1); } | redirection

redirection
  : source '<' WORD    { $$ = redirected($1 < 0 ? 0 : $1, "r", $3); }
  | source '>' WORD    { $$ = redirected($1 < 0 ? 1 : $1, "w", $3); }
  | source ">>" WORD   { $$ = redirected($1 < 0 ? 1 : $1, "a", $3); }

source: %empty { $$ = -1; } | NUMBER

%%
static void complain(const char *what) { fputs(what, stderr); }
