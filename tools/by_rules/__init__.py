"""What the rules of docs/BEHAVIOUR.md make of the text of a Yacc file: a tree, errors, a numbered grammar, its costs, and
findings.

A plain reading of that page, which shares nothing with the crates. The comments name its sections. What begins with `bison`
is on files of Yacc and Bison, and what begins with `conflict`, with states.py, on LALR(1) conflicts: tools/beside_bison
compares both with Bison itself.
"""
