"""What is read from a text: "The parts of a file", "What a file says", "Declared more than once", "Where a reading stops"."""
from .faults import Fault, at
from .section import section
from .words import (
    QUOTES, action_text, blank, colon_text, integer, line_rest, name, same_line_blank, string, token)

# what may be declared once, and the kind of the error for a second declaration
DUPLICATES = {
    'start': 'DuplicateStartDeclaration',
    'actiontype': 'DuplicateActiontypeDeclaration',
    'expect': 'DuplicateExpectDeclaration',
    'expect-rr': 'DuplicateExpectRRDeclaration',
    'epp': 'DuplicateEPP',
    'precedence': 'DuplicatePrecedence',
    'avoid_insert': 'DuplicateAvoidInsertDeclaration',
    'implicit_tokens': 'DuplicateImplicitTokensDeclaration',
}


class Rule:
    def __init__(self, span, action_type):
        self.span, self.action_type, self.productions = span, action_type, []


class Production:
    """A finished alternative: its symbols (is it a token, name, span), the token of its %prec, and its action."""

    def __init__(self, span, symbols, precedence, action):
        self.span, self.symbols, self.precedence, self.action = span, symbols, precedence, action


class Tree:
    def __init__(self, kind):
        self.kind = kind
        self.start = None          # (name, span)
        self.action_type = None    # text
        self.expect = None         # (number, span)
        self.expectrr = None
        self.param = None          # (name, type)
        self.generics = None       # text
        self.programs = None       # text
        self.unused = []           # [(is it a token, name, span)] of the %expect-unused lists
        self.levels = 0            # the number of precedence declarations
        self.has_default_precedence = True         # whether a production has the precedence of its last token
        self.only_precedence = []  # the names in %precedence lists
        self.end = None            # the name of the end token, if the file has it
        self.precedences = {}      # name: (level, associativity, span), in order
        self.printed = {}          # name: (span of the key, text, span of the string), in order
        self.avoid_insert = None   # name: span, in order
        self.implicit_tokens = None
        self.rules = {}            # name: Rule, in order
        self.productions = []
        self.tokens = {}           # name: span, in order
        self.declared = {}         # the names in %token lists
        self.declared_again = []   # [(name, span)] of those that such lists have before
        self.overridden = []       # [(name, span)] of each %prec that a later one of its production overrides
        self.spans = {}            # (what may be declared once, token): [span of each declaration]
        self.repeated = []         # what is declared more than once, in order of the first repeats

    def once(self, what, span, token=None):
        """Adds a declaration of what may be declared once. Whether it is the first."""
        spans = self.spans.setdefault((what, token), [])
        spans.append(span)
        if len(spans) == 2:
            self.repeated.append((what, token))
        return len(spans) == 1

    def add_token(self, name, span):
        self.tokens.setdefault(name, span)

    def duplicates(self):                          # "Declared more than once"
        return [Fault(DUPLICATES[what], self.spans[what, token][0], None, self.spans[what, token][1:])
                for what, token in self.repeated]


def read(kind, t):
    """What was read from t, and the faults that stopped the reading: those of its section, or one after it."""
    tree = Tree(kind)
    _, errors, end = section(t, False)
    if errors:
        return tree, errors
    try:
        programs(t, rules(t, declarations(t, blank(t, end), tree), tree), tree)
    except Fault as fault:
        return tree, [fault]
    return tree, []


def declarations(t, p, tree):
    while not t.startswith(b'%%', p):
        if p == len(t):
            raise at('PrematureEnd', p)
        keyword, declaration = next(
            ((k, d) for k, d, only in DECLARATIONS if t.startswith(k, p) and only in (None, tree.kind)), (None, None))
        if keyword is None:
            raise at('UnknownDeclaration', p)
        p = declaration(t, p + len(keyword), tree)
    return p + 2


def tokens_declared(t, p, tree):
    p = same_line_blank(t, p)
    while p < len(t) and not t.startswith(b'%', p):
        n, span, p = token(t, p)
        tree.add_token(n, span)
        if n in tree.declared:
            tree.declared_again.append((n, span))
        tree.declared[n] = True
        p = blank(t, p)
    return p


def action_type_declared(t, p, tree):
    p = same_line_blank(t, p)
    text, end = line_rest(t, p)
    if tree.once('actiontype', (p, end)):
        tree.action_type = text
    return blank(t, end)


def start_declared(t, p, tree):
    p = same_line_blank(t, p)
    n, end = name(t, p)
    if tree.once('start', (p, end)):
        tree.start = (n, (p, end))
    return blank(t, end)


def printed_form_declared(t, p, tree):
    p = same_line_blank(t, p)
    n, _, end = token(t, p)
    key, p = (p, end), same_line_blank(t, end)
    text, end = string(t, p)
    if tree.once('epp', key, n):
        tree.printed[n] = (key, text, (p, end))
    return blank(t, end)


def expect_declared(t, p, tree):
    p = same_line_blank(t, p)
    number, end = integer(t, p)
    if tree.once('expect', (p, end)):
        tree.expect = (number, (p, end))
    return blank(t, end)


def expect_rr_declared(t, p, tree):
    p = same_line_blank(t, p)
    number, end = integer(t, p)
    if tree.once('expect-rr', (p, end)):
        tree.expectrr = (number, (p, end))
    return blank(t, end)


def expect_unused_declared(t, p, tree):
    p = same_line_blank(t, p)
    while p < len(t) and not t.startswith(b'%', p):
        p = blank(t, expect_unused_symbol(t, p, tree))
    return p


def expect_unused_symbol(t, p, tree):
    """Reads a name, else a token."""
    try:
        n, end = name(t, p)
        tree.unused.append((False, n, (p, end)))
        return end
    except Fault:
        pass
    try:
        n, span, end = token(t, p)
    except Fault:
        raise at('UnknownSymbol', p)
    tree.unused.append((True, n, span))
    return end


def param_declared(t, p, tree):
    n, p = colon_text(t, same_line_blank(t, p))
    text, p = line_rest(t, same_line_blank(t, p + 1))
    tree.param = (n, text)
    return blank(t, p)


def generics_declared(t, p, tree):
    tree.generics, p = line_rest(t, same_line_blank(t, p))
    return blank(t, p)


def ends_line(t, p, end):
    return b'\r' in t[p:end] or b'\n' in t[p:end]


def avoid_insert_declared(t, p, tree):
    keyword, p = p, same_line_blank(t, p)
    tree.avoid_insert = tree.avoid_insert or {}
    return marked_tokens(t, keyword, p, tree, 'avoid_insert', tree.avoid_insert)


def implicit_tokens_declared(t, p, tree):
    keyword, p = p, same_line_blank(t, p)
    tree.implicit_tokens = tree.implicit_tokens or {}
    return marked_tokens(t, keyword, p, tree, 'implicit_tokens', tree.implicit_tokens)


def marked_tokens(t, keyword, p, tree, what, table):
    """Reads a list that only the end of a line closes, or none if its keyword ends the text."""
    while keyword < len(t):
        n, span, end = token(t, p)
        tree.add_token(n, span)
        if tree.once(what, span, n):
            table[n] = span
        p = blank(t, end)
        if ends_line(t, end, p):
            break
    return p


def precedence_declared(associativity):
    def declaration(t, p, tree):
        p = same_line_blank(t, p)
        while p < len(t):
            n, span, end = token(t, p)
            if tree.once('precedence', span, n):
                tree.precedences[n] = (tree.levels, associativity, span)
            p = blank(t, end)
            if ends_line(t, end, p):
                break
        tree.levels += 1
        return p
    return declaration


# the keywords, their declarations, and the one kind of file that has them
DECLARATIONS = (
    (b'%token', tokens_declared, None),
    (b'%actiontype', action_type_declared, 'Original'),
    (b'%start', start_declared, None),
    (b'%epp', printed_form_declared, None),
    (b'%expect-rr', expect_rr_declared, None),
    (b'%expect-unused', expect_unused_declared, None),
    (b'%expect', expect_declared, None),
    (b'%avoid_insert', avoid_insert_declared, None),
    (b'%parse-param', param_declared, None),
    (b'%parse-generics', generics_declared, None),
    (b'%implicit_tokens', implicit_tokens_declared, 'Eco'),
    (b'%left', precedence_declared('Left'), None),
    (b'%right', precedence_declared('Right'), None),
    (b'%nonassoc', precedence_declared('Nonassoc'), None),
)


def rules(t, p, tree):
    p = blank(t, p)
    while p < len(t) and not t.startswith(b'%%', p):
        n, p = head(t, p, tree)
        if not t.startswith(b':', p):
            raise at('MissingColon', p)
        p = blank(t, body(t, blank(t, p + 1), tree, tree.rules[n]))
    return p


def head(t, p, tree):
    """The name of a rule, and the offset at which its colon has to be."""
    n, end = name(t, p)
    span, action_type = (p, end), tree.action_type
    if tree.start is None:
        tree.start = (n, span)
    if tree.kind == 'Grmtools':
        p = blank(t, end)
        if not t.startswith(b'->', p):
            raise at('MissingRightArrow', p)
        action_type, end = colon_text(t, blank(t, p + 2))
    tree.rules.setdefault(n, Rule(span, action_type))
    return n, blank(t, end)


def programs(t, p, tree):
    if p < len(t):
        tree.programs = t[blank(t, p + 2):].decode('utf-8')


def ends_production(t, p):
    return t[p:p + 1] in (b'|', b';')


def body(t, p, tree, rule):
    """Reads productions up to and including the `;`."""
    while True:
        p = production(t, p, tree, rule)
        if t[p:p + 1] == b';':
            return p + 1
        p = blank(t, p + 1)


def production(t, p, tree, rule):
    """Reads a production up to the `|` or `;` that ends it."""
    begin, end, symbols, precedences, action = p, None, [], [], None
    while not ends_production(t, p):
        if p == len(t):
            raise at('IncompleteRule', p)
        if t[p:p + 1] in QUOTES:
            n, span, end = token(t, p)
            p = blank(t, end)
            tree.add_token(n, span)
            symbols.append((True, n, span))
        elif t.startswith(b'%prec', p):
            n, span, end = token(t, blank(t, p + len('%prec')))
            tree.add_token(n, span)
            precedences.append((n, span))
            p = blank(t, end)
        elif t.startswith(b'{', p):
            text, span, after = action_text(t, p)
            action, end, p = (text, span), p, blank(t, after)
            if not ends_production(t, p):
                raise at('ProductionNotTerminated', p)
        elif t.startswith(b'%empty', p):
            after = blank(t, p + len('%empty'))
            if symbols or not (ends_production(t, after) or t.startswith((b'{', b'%prec'), after)):
                raise at('NonEmptyProduction', p)
            end, p = p + len('%empty'), after
        else:
            n, span, end = token(t, p)
            symbols.append((n in tree.declared, n, span))
            p = blank(t, end)
    rule.productions.append(len(tree.productions))
    tree.overridden += precedences[:-1]
    precedence = precedences[-1][0] if precedences else None
    tree.productions.append(Production((begin, p if end is None else end), symbols, precedence, action))
    return p
