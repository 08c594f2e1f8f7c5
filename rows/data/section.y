%grmtools {
  yacckind: Original(YaccOriginalActionKind::GenericParseTree),
}
%start A
%% A: 'x' B;
B: ;
