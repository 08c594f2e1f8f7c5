"""What the program of rows has to print of rows (docs/ROWS.md), by the rules alone. tools/rules prints it: each module has a
function `printed`, which gives it row by row, and what a run of the program leaves open is taken from its output.
"""
