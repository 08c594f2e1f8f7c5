// Command lines of a small shell: lists of pipelines, redirections, loops.
// Words come from the lexer with their quotes already taken away.

%token WORD            // anything that isn't one of the signs below
%token ASSIGNMENT      // NAME=value in front of a command
%token IO_NUMBER       // a digit right in front of < or >
%token NEWLINE
%token 'if' 'then' 'elif' 'else' 'fi'
%token 'for' 'in' 'while' 'until' 'do' 'done' 'case' 'esac'

%start Script
%%

Script: Breaks
      | Breaks List
      ;

// One or more commands; each may be sent to the background.
List: AndOr
    | AndOr Separator
    | AndOr Separator List
    ;

Separator: ';' Breaks
         | '&' Breaks
         | NEWLINE Breaks
         ;

Breaks: | Breaks NEWLINE;

AndOr: Pipeline
     | AndOr "&&" Breaks Pipeline
     | AndOr "||" Breaks Pipeline
     ;

Pipeline: Pipe | '!' Pipe;

Pipe: Command
    | Pipe '|' Breaks Command
    | Pipe "|&" Breaks Command
    ;

Command: Simple
       | Compound Redirects
       | WORD '(' ')' Breaks Compound       // a function's definition
       ;

// ---- simple commands -------------------------------------------------

Simple: Prefix
      | Prefix WORD Suffix
      | WORD Suffix
      ;

Prefix: PrefixItem | Prefix PrefixItem;
PrefixItem: ASSIGNMENT | Redirect;

Suffix:
      | Suffix WORD
      | Suffix ASSIGNMENT      // behind the command's name it is a word
      | Suffix Redirect
      ;

Redirects: | Redirects Redirect;

Redirect: Arrow WORD
        | IO_NUMBER Arrow WORD
        ;

Arrow: '<' | '>' | ">>" | "<&" | ">&" | "<>" | "<<";

// ---- compound commands -----------------------------------------------

Compound: '{' Breaks List '}'
        | '(' Breaks List ')'
        | if Breaks List then Breaks List Elses fi
        | while Breaks List do Breaks List done
        | until Breaks List do Breaks List done
        | for WORD Breaks do Breaks List done
        | for WORD in Words Separator do Breaks List done
        | case WORD in Breaks Cases esac
        ;

Elses:
     | else Breaks List
     | elif Breaks List then Breaks List Elses
     ;

Words: | Words WORD;

Cases: | Cases Case;

Case: Patterns ')' Breaks ";;" Breaks
    | Patterns ')' Breaks List ";;" Breaks
    | '(' Patterns ')' Breaks ";;" Breaks
    | '(' Patterns ')' Breaks List ";;" Breaks
    ;

Patterns: WORD | Patterns '|' WORD;
