// Outlines of notes: white space and remarks may stand behind every token.
%implicit_tokens WHITESPACE REMARK
%token HEADING TEXT
%left ',' ';'
%avoid_insert HEADING
%implicit_tokens 'LINE'
%expect-unused Empty
%start Outline
%%
Outline: Section | Outline Section;
Section: HEADING Title Body;
Title: TEXT | Title ',' TEXT %prec ';';
Body: Items | %empty;
Items: Item | Items ';' Item;
Item: TEXT | '[' Items ']' | '[' ']';
Empty: ;
