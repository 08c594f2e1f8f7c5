/* Scripts of a shell: a statement may have a label and a remark, and both may be left out. */

%token NAME WORD REMARK

%start Script

%%

Script:
  | Script Statement '\n'
  ;

Statement:
    Label Statement Remark
  | Command
  ;

Label: | NAME ':' ;

Remark: | REMARK ;

Command:
    NAME
  | Command WORD
  ;
