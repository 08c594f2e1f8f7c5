"""Errors of Yacc and Bison files: what each says, the word of its kind, and the note on it."""
import re

from .faults import Fault
from .near import nearest

# what each kind of error says, and its word
TEXTS = {
    'IllegalCharacters': ('Illegal characters', 'illegal-characters'),
    'IllegalIdentifier': ('Illegal identifier', 'illegal-identifier'),
    'IllegalInteger': ('Illegal integer', 'illegal-integer'),
    'IllegalEscape': ('Illegal escape', 'illegal-escape'),
    'IllegalName': ('Illegal name in brackets', 'illegal-bracketed-name'),
    'EmptyLiteral': ('Empty character literal', 'empty-literal'),
    'LongLiteral': ('Character literal of more than one character', 'long-literal'),
    'UnknownDirective': ('Unknown directive', 'unknown-directive'),
    'IncompleteComment': ('Incomplete comment', 'incomplete-comment'),
    'IncompleteLiteral': ('Incomplete character literal', 'incomplete-literal'),
    'IncompleteString': ('Incomplete string', 'incomplete-string'),
    'IncompleteTag': ('Incomplete tag', 'incomplete-tag'),
    'IncompleteName': ('Incomplete name in brackets', 'incomplete-bracketed-name'),
    'IncompleteCode': ('Incomplete code', 'incomplete-code'),
    'IncompletePrologue': ('Incomplete prologue', 'incomplete-prologue'),
    'Unexpected': ('Expected %s', 'unexpected-word'),
    'RepeatedInProduction': (
        'A production has one %prec, one %empty and one %dprec at most', 'repeated-in-production'),
    'IllegalPriority': ('%dprec has to be at least 1', 'illegal-priority'),
    'NonEmptyProduction': ('%empty used in non-empty production', 'non-empty-production'),
    'NotForRules': ('%nterm has names of rules only', 'not-for-rules'),
    'SeveralStarts': ('More than one start rule', 'several-starts'),
    'RuleIsToken': ("The rule's name is that of a token", 'rule-is-token'),
    'DuplicatePrecedence': ('Token has multiple precedences specified', 'duplicate-precedence'),
    'UnknownSymbol': ('Unknown symbol: neither a token nor a rule', 'undeclared-symbol'),
    'InvalidStart': ("The start isn't a rule", 'invalid-start-rule'),
    'NoRule': ('There is no rule', 'no-rules'),
}
# what is missing where a word can't be
MISSING = {
    'declaration': "a declaration or '%%'",
    'rule': 'a rule or a declaration',
    'part': 'a part of a production or its end',
    'token': 'the name of a token',
    'symbol': 'a symbol',
    'symbol or tag': 'a symbol or a tag',
    'identifier': 'an identifier',
    'number': 'a number',
    'string': 'a string',
    'code': 'code in braces',
    'tag': 'a tag',
    'colon': "':'",
    'semicolon': "';'",
}
# of these each other place is shown too
BESIDE = ('RepeatedInProduction', 'SeveralStarts', 'DuplicatePrecedence', 'RuleIsToken')
# what a long word is called where it can't be, by how it begins
FOUND = ((b'{', 'code in braces'), (b'%{', 'a prologue'), (b'%?', 'a predicate'))
# the directives of which one may be meant
SUGGESTED = ('%token', '%nterm', '%type', '%left', '%right', '%nonassoc', '%precedence', '%start', '%union', '%code',
             '%destructor', '%printer', '%expect', '%expect-rr', '%define', '%require', '%prec', '%empty', '%dprec',
             '%merge', '%param', '%parse-param', '%lex-param', '%initial-action', '%locations', '%debug', '%verbose',
             '%skeleton', '%language', '%output', '%header', '%defines', '%name-prefix', '%file-prefix', '%no-lines',
             '%token-table', '%default-prec', '%no-default-prec', '%glr-parser', '%pure-parser', '%error-verbose',
             '%yacc')
NO_TOKEN = 'if it is a token, declare it by %token'
# what would end a word that has no end
CLOSING = {'IncompleteComment': "'*/'", 'IncompleteLiteral': 'quote', 'IncompleteString': 'quote', 'IncompleteTag': "'>'",
           'IncompleteName': "']'", 'IncompleteCode': "'}'", 'IncompletePrologue': "'%}'"}
# what is said whatever the word is
PLAIN = {'EmptyLiteral': 'one character is between the quotes, and %empty is for a production without symbols',
         'LongLiteral': 'several characters are in double quotes',
         'IllegalName': 'brackets have one name'}
# what is said after the word in which a fault is, and after characters that begin no word
ADVICE = {'IllegalEscape': ": escapes are those of C, and '\\\\' is a backslash",
          'IllegalIdentifier': ': a name begins with no digit, and a string is in double quotes',
          'IllegalInteger': ': the greatest number is 2147483647'}
QUOTE = tuple(c.encode() for c in '\u2018\u2019\u201a\u201b\u201c\u201d\u201e\u201f')
CHARACTERS = ((b'#', ": comments begin with '//' or '/*'"),
              (b':', ": one ':' is between a rule's name and its productions"),
              (QUOTE, ": quotes are ' and \""),
              (b'', ': a token is in quotes, and productions have no operators'))


class BisonFault(Fault):
    """An error: its kind, its span, a name in it, what was found, what may be there, and what is missing."""

    def __init__(self, kind, span, name=None, found=None, expected=(), missing=None, repeats=()):
        Fault.__init__(self, kind, span, name, repeats)
        self.found, self.expected, self.missing = found, expected, missing

    def display(self):
        text = TEXTS[self.kind][0]
        return text % MISSING[self.missing] if self.missing else text

    def word(self):
        return TEXTS[self.kind][1]

    def spans_kind(self):
        return 'DuplicationError' if self.kind in BESIDE else 'Error'


def note_on(t, error, names):
    """The note on an error in a text, or None. The names are those that may be meant."""
    covered = t[slice(*error.span)]
    if error.kind == 'Unexpected':
        no_colon = error.missing == 'rule' and re.match(rb'[A-Za-z_.]', covered)
        return 'found ' + found(covered) + (", and no ':' after it: '%%' comes before code" if no_colon else '')
    if error.kind == 'IllegalCharacters' and covered.startswith(b'\xef\xbb\xbf'):
        return 'a byte order mark: save the file without one'
    if error.kind in CLOSING:
        return 'no %s closes it' % CLOSING[error.kind]
    word = covered.decode('utf-8')
    if error.kind == 'IllegalCharacters':
        return "found '%s'" % word + next(advice for begin, advice in CHARACTERS if covered.startswith(begin))
    if error.kind in ADVICE:
        return "found '%s'" % word + ADVICE[error.kind]
    if error.kind in PLAIN:
        return PLAIN[error.kind]
    if error.kind == 'UnknownDirective':
        return nearest(word, SUGGESTED)
    if error.kind == 'UnknownSymbol':
        return nearest(word, names) or NO_TOKEN
    return nearest(word, names) if error.kind == 'InvalidStart' else None


def found(covered):
    if not covered:
        return 'the end of the file'
    return next((called for begin, called in FOUND if covered.startswith(begin)), "'%s'" % covered.decode('utf-8'))
