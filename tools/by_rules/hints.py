"""The notes on errors: "The program cfglint"."""
import re

from .faults import HeaderFault

DECLARATIONS = ('%token, %start, %left, %right, %nonassoc, %epp, %expect, %expect-rr, %expect-unused, %avoid_insert, %parse-param and '
                '%parse-generics; %actiontype in the original kinds and %implicit_tokens in Eco')
PIECE = re.compile(rb'%[a-zA-Z0-9_%-]*|[a-zA-Z_.][a-zA-Z0-9_.]*|[0-9]+|[\x00-\x7f]|[\xc0-\xff][\x80-\xbf]*')
EXPECTED = {
    'IllegalInteger': ', expected a number up to 18446744073709551615',
    'UnknownSymbol': ', expected a name or a quoted text',
}
# what is said whatever the text is
PLAIN = {
    'IncompleteAction': "no '}' closes it: each '{' in it needs one, also in a string or a comment",
    'IncompleteComment': "no '*/' closes it",
    'IncompleteRule': "a ';' ends a rule",
    'NoStartRule': 'the file has no rules',
    'InvalidString': "a quoted text ends on its line, and has a '\\' only before a quote",
}
QUOTED = ", which no quote closes on this line: one may be missing, or one too many, since a quoted text isn't empty and has no escapes"
PLACE = 'a section %grmtools{..} is at the start of the file, before any comment'
ENDLESS = ": a %parse-param without ':' goes on to the next ':'"
OTHERS = 'Original(NoAction), Original(UserAction) and Original(GenericParseTree)'
KINDS = (
    (re.compile(b'[gG]'), ", expected a kind, without quotes: did you mean Grmtools? The others are Eco, " + OTHERS),
    (re.compile(b'[eE]'), ", expected a kind, without quotes: did you mean Eco? The others are Grmtools, " + OTHERS),
    (b'', ', expected a kind, without quotes: Grmtools, Eco, Original(NoAction), Original(UserAction) or Original(GenericParseTree)'),
)
NO_KIND = 'the section has no key yacckind, and so names no kind'
# bytes without a blank or a quote, and then a quote
UNOPENED = re.compile(rb'[^ \t\r\n"\'|;:]+["\']')
MEANT = ", expected a name or a quoted text: did you mean '%s'?"
# from U+2018 up to U+201F
TYPOGRAPHIC = re.compile(rb'\xe2\x80[\x98-\x9f]')
# what is said where a token is missing, by what is there
TOKENS = (
    (b':=', ": only one ':' is between a rule's name and its productions"),
    (b'->', ": a ';' may be missing before this rule"),
    (UNOPENED, ', expected a name or a quoted text: a quote may be missing before it, or be one too many, as in \'\''),
    (TYPOGRAPHIC, ', expected a name or a quoted text: quotes are \' and "'),
    (b'#', ", expected a name or a quoted text: comments begin with '//'"),
    (b'=', ", expected a name or a quoted text: a rule's name has ':' after it, and an action is in braces"),
    (re.compile(rb'[?*+()]'), ', expected a name or a quoted text: a token is in quotes, and productions have no operators'),
    (b'<', ": tags such as <value> aren't read"),
    *((b'%d' % digit, ", expected a name or a quoted text: numbers of tokens aren't read") for digit in range(10)),
    (b':', ": a ';' may be missing before this rule, or '%%' before the first one"),
    (b'"', QUOTED),
    (b"'", QUOTED),
    (re.compile(rb'%(?!prec)p[er]'), MEANT % '%prec'),
    (re.compile(rb'%(?!empty)em'), MEANT % '%empty'),
    (b'%', ", expected a name or a quoted text: a ';' or the end of a line may be missing before it, "
           'and in a rule only %prec and %empty are read'),
    (b'.', ', expected a name without dots or a quoted text'),
)
# what is said by what is there: where a rule has no colon or type, where a rule has no name, and where a section has no name
WORD = re.compile(rb'[a-zA-Z_.]')
HEAD = re.compile(rb'[a-zA-Z_.][a-zA-Z0-9_.]*[ \t\r\n]*(:|->)')
TYPE = ", expected '->' and the type of the rule's value"
ADVICE = {
    'MissingColon': ((b'->', ': rules have types only in files of the kind Grmtools, as %grmtools{yacckind: Grmtools} says'),
                     (WORD, ", expected ':', or '%%' before code"), (b'', ", expected ':'")),
    'MissingRightArrow': ((b':', TYPE + ': only files of the kind Grmtools have types'),
                          (WORD, TYPE + ", or '%%' before code"), (b'', TYPE)),
    'IllegalName': ((b'#', ", expected the name of a rule: comments begin with '//', and '%%' comes before code"),
                    (b'', ', expected the name of a rule')),
    'ProductionNotTerminated': ((HEAD, ": a ';' may be missing before this rule"), (b'%%', ": a ';' may be missing before it"),
                                (b'', ", expected '|' or ';': an action may only be at the end of a production, and a '}' ends it "
                                      'also in a string or a comment')),
    'IllegalString': (*TOKENS, (b'', ', expected a name or a quoted text')),
}
# where no token is after a `%%`, a `->` and another `%%`
PAST_END = re.compile(rb'%%.*->.*%%', re.S)
PAST_END_ADVICE = ", expected a name or a quoted text: the type of a rule goes on to the next ':', and may have a '%%'"
KEYS = ((b'%', ", expected a name: a '}' may be missing before it"), (b'"', ', which no quote closes'), (b'', ', expected a name'))


def found(t, p):
    """What is at p."""
    if p == len(t):
        return 'the end of the file'
    if t[p:p + 1] in (b'\r', b'\n'):
        return 'the end of the line'
    return "'%s'" % PIECE.match(t, p).group().decode('utf-8')


def hint(t, error):
    """The note on an error, or None."""
    p = error.spans[0][0]
    if isinstance(error, HeaderFault):
        return section_hint(t, error)
    if error.kind == 'UnknownDeclaration':
        return unknown_declaration(t, p)
    if error.kind == 'PrematureEnd':
        return "'%%' comes before the rules" + ENDLESS * (b'%parse-param' in t)
    if error.kind == 'ReachedEOL' and p == len(t):
        return "found the end of the file, expected ':' after the type of a rule or the name of a %parse-param"
    if error.kind == 'ReachedEOL':
        return 'what a declaration needs is in one line with its keyword' + ENDLESS * (b'%parse-param' in t[:p])
    if error.kind == 'IllegalString' and PAST_END.search(t[:p]):
        return 'found ' + found(t, p) + PAST_END_ADVICE
    if error.kind in ADVICE:
        return advised(t, p, ADVICE[error.kind])
    return 'found ' + found(t, p) + EXPECTED[error.kind] if error.kind in EXPECTED else PLAIN.get(error.kind)


def advised(t, p, advices):
    """What is at p, and the first of these pieces of advice that is for it."""
    return 'found ' + found(t, p) + next(advice for what, advice in advices if is_at(t, what, p))


def is_at(t, what, p):
    """Whether a word, or what a pattern matches, is at p."""
    return t.startswith(what, p) if isinstance(what, bytes) else what.match(t, p) is not None


def section_hint(t, error):
    """The note on an error in a section."""
    p, end = error.spans[0]
    if error.kind == 'MissingGrmtoolsSection':
        return PLACE
    if error.kind == 'IllegalName':
        return advised(t, p, KEYS)
    if error.kind == 'ExpectedToken':
        return 'found ' + found(t, end) + (", expected '}', or ',' and another key" if error.holds == ('}',) else '')
    if error.kind != 'InvalidEntry' or error.holds != ('yacckind',):
        return None
    return NO_KIND if p == 0 else advised(t, p, KINDS)


def unknown_declaration(t, p):
    if p == 0 and t.startswith(b'\xef\xbb\xbf'):
        return 'the file begins with a byte order mark: save it without one'
    if t.startswith(b'%{', p):
        return "code between %{ and %} isn't read: leave it out of the grammar"
    if t.startswith(b'%grmtools', p):
        return PLACE
    if t[p:p + 1] == b'%' and t[p + 1:p + 2].isalpha():
        return found(t, p) + " isn't read here: the declarations are " + DECLARATIONS
    advice = ": comments begin with '//'" if t[p:p + 1] == b'#' else ENDLESS * (b'%parse-param' in t[:p])
    return 'found ' + found(t, p) + ", expected a declaration or '%%'" + advice
