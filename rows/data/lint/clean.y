// A list of tasks, each with a mark and words. Nothing is odd about it.

%token WORD

%start Tasks

%%

Tasks: | Tasks Task ;

Task:
    '-' Words ';'
  | '+' Words ';'
  ;

Words: WORD | Words WORD ;
