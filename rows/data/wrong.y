%start A
%%
A: B C;
