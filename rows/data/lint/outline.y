%grmtools{yacckind: Eco}
// Outlines: white space may stand behind every token, and a remark too.
%implicit_tokens WHITESPACE REMARK
%left REMARK
%left WORD
%left TAB
%%
Outline: | Outline Item ;
Item: '*' Words ';' | '*' Words ';' ;
Words: Word | Words Word ;
Word: 'word' | Quoted ;
Quoted: '"' Words '"' | Word ;
