%grmtools{yacckind: Grmtools}
%%
List -> Vec<u64>: List ',' Item | Item;
Item -> u64: 'number';
Rest -> (): ;
