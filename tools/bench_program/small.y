%start List
%%
List: Item | List ',' Item;
Item: 'a' | 'b' | '(' Pair ')';
Pair: 'a' 'a' Tail;
Tail: ;
