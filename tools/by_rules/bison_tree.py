"""Yacc and Bison files as `cfglint` reads them: their trees, in the form of other files, and when a file is one."""
from .bison import read
from .grammar import Grammar
from .reader import Production, Rule, Tree
from .validation import errors_of

# what only files of Yacc and Bison have
SIGNS = (b'%{', b'%union', b'%type', b'%define', b'%code', b'%nterm', b'%precedence', b'%destructor', b'%printer',
         b'%locations', b'%debug', b'%pure-parser', b'%pure_parser', b'%lex-param', b'%name-prefix', b'%require',
         b'%skeleton', b'%language', b'%defines', b'%token-table', b'%error-verbose', b'%initial-action',
         b'%glr-parser', b'%binary', b'%term',
         *(b'%%%s%s<' % (word, blank) for word in (b'token', b'left', b'right', b'nonassoc') for blank in (b' ', b'')))
GREATEST = 4294967295


def is_bison(t):
    """Whether a file that names no kind is read as Bison's: it has such a sign, and errors as any other file."""
    return any(sign in t for sign in SIGNS) and not is_plain_grammar(t)


def is_plain_grammar(t):
    tree, errors = errors_of('Original', t)
    return not errors and Grammar(tree).fits(GREATEST)


def read_bison(t):
    """The tree and the errors of a file."""
    found, errors = read(t)
    tree = Tree('Original')
    tree.start, tree.expect, tree.expectrr, tree.programs = found.start, found.expect, found.expectrr, found.programs
    tree.precedences, tree.declared_again = found.precedences, found.listed_again
    tree.has_default_precedence, tree.only_precedence = found.has_default_precedence, found.only_precedence
    tree.end = found.end
    tree.tokens = {name: token.span for name, token in found.tokens.items()}
    tree.unused = [(True, name, span) for name, span in found.unneeded]
    tree.printed = {name: (token.span, token.alias[0], token.alias[1])
                    for name, token in found.tokens.items() if token.alias}
    for name, rule in found.rules.items():
        tree.rules[name] = Rule(rule.span, None)
        tree.rules[name].productions = rule.productions
    tree.productions = [Production(it.span, it.symbols, it.precedence, it.action) for it in found.productions]
    return tree, errors
