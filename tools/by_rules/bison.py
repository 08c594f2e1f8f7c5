"""What a Yacc or Bison file means, as Bison 3.8 reads it: its declarations, its rules, what they become, its errors.

A fault of the text doesn't end the reading: after one in a declaration it goes on at the next declaration, and after
one in the rules at the next `;` or `%%`. What was skipped may have declared a symbol or given a rule, so then no
symbol, no start and no rule is reported as missing.
"""
from .bison_faults import BisonFault
from .bison_words import DECLARATIONS, FLAGS, IN_PRODUCTIONS, WITH_STRING, words_of

ASSOCIATIVITIES = {
    'left': 'Left', 'right': 'Right', 'nonassoc': 'Nonassoc', 'binary': 'Nonassoc', 'precedence': 'Nonassoc'}
# the faults of names; all others are of the text
OF_NAMES = (
    'UnknownSymbol', 'RuleIsToken', 'NotForRules', 'InvalidStart', 'SeveralStarts', 'DuplicatePrecedence', 'NoRule')
# tokens that need no declaration, each with another name that it has
BUILT_IN = {'error': 'YYerror', 'YYUNDEF': '$undefined', 'YYEOF': None}
SYMBOLS = ('identifier', 'literal', 'string')


class Unexpected(Exception):
    pass


class Symbol:
    """What a file says of a symbol: whether it is a token, whether it is a rule, and its alias."""

    def __init__(self, is_token=False, alias=None):
        self.is_token, self.is_rule, self.alias = is_token, False, alias

    @property
    def kind(self):
        """'token', 'rule', or None."""
        return 'token' if self.is_token else 'rule' if self.is_rule else None


class Token:
    """A token: its span, and its alias or None, as it is spelled, with its span and its value."""

    def __init__(self, span):
        self.span, self.alias = span, None


class Rule:
    """A rule: its span, and the indices of its productions."""

    def __init__(self, span):
        self.span, self.productions = span, []


class Production:
    """A production: its span, its symbols (is it a token, name, span), the token of its %prec, and its action.

    The span ends after the last item but the action. Either of the last two may be None.
    """

    def __init__(self, span, symbols, precedence, action):
        self.span, self.symbols, self.precedence, self.action = span, symbols, precedence, action


class Tree:
    """What was read of a file."""

    def __init__(self):
        self.start = None              # (name, span)
        self.expect = None             # (number, span); the last one counts
        self.expectrr = None
        self.has_default_precedence = True
        self.tokens = {}               # name: Token, in order
        self.listed_again = []         # (name, span) of tokens that %token lists have before
        self.precedences = {}          # name: (level, associativity, span), in order
        self.only_precedence = []      # the names in %precedence lists
        self.rules = {}                # name: Rule, in order of the first productions; then %nterm names without a rule
        self.productions = []          # those of `$@N` come before the one that has the action
        self.end = 'YYEOF'             # the name of the end token
        self.unneeded = []             # (name, span) of tokens that no production needs: the end of the text, and Bison's own
        self.programs = None           # the epilogue

    def precedence_token(self, production):
        """The token whose precedence a production has, or None."""
        if production.precedence is None and self.has_default_precedence:
            return next((n for is_token, n, _ in reversed(production.symbols) if is_token), None)
        return production.precedence


def action_of(word):
    """The action that the word of code is. A predicate is none."""
    return word.value if word and word.kind == 'code' else None


class Draft:
    """A production that is being read. Its symbols are keys, with their spans."""

    def __init__(self, begin):
        self.begin, self.end = begin, begin
        self.symbols, self.precedence, self.once = [], None, {}
        self.later = []                # what it says of symbols, and its faults, which count if it is read whole
        self.pending = None            # the word of code, or of a predicate, that isn't before another symbol so far
        self.pending_end = None        # where it ends, with its name


class Reader:
    """Reads words. A symbol's key is its kind and its value, so `'a'` and `a` are two. Aliases are resolved later."""

    def __init__(self, words, faults):
        self.words, self.next, self.expected = words, 0, []
        self.faults = faults
        self.symbols = {('identifier', n): Symbol(True, alias) for n, alias in BUILT_IN.items()}
        self.tokens = {}               # key: span, in order
        self.listed = []               # (key, span) of those in %token lists
        self.declared_tokens = []      # (key, span, whether its number is 0) of those in lists of tokens and precedences
        self.rules = {}                # key: span, in order of their first productions
        self.nonterminals = {}         # key: span of %nterm names
        self.owners = {}               # the key of an alias: that of its token
        self.aliases = {}              # key of a token: (text, span, value)
        self.levels, self.precedences = 0, []     # (key, level, name of the directive, span)
        self.start, self.expect, self.expectrr, self.has_default_precedence = None, None, None, True
        self.drafts, self.inner = [], 0
        self.used = []                 # (key, span) of the symbols of productions

    # ------------------------------------------------------------ words

    def at(self, *kinds, called=None):
        """Whether the next word is one of these. If not, they are among what may be there, perhaps by another name."""
        if self.words[self.next].kind in kinds:
            return True
        self.expected += [it for it in ([called] if called else kinds) if it not in self.expected]
        return False

    def take(self, *kinds):
        return self.advance() if self.at(*kinds) else None

    def need(self, *kinds, missing=None):
        return self.take(*kinds) or self.unexpected(missing or kinds[0])

    def advance(self):
        self.next, self.expected = self.next + 1, []
        return self.words[self.next - 1]

    def unexpected(self, missing):
        word = self.words[self.next]
        if word.kind != 'fault':
            self.faults.append(BisonFault('Unexpected', word.span, None, word.kind, tuple(self.expected), missing))
        raise Unexpected

    def fault(self, kind, span, name=None, repeats=()):
        self.faults.append(BisonFault(kind, span, name, repeats=repeats))

    def skip_to(self, *kinds):
        while self.words[self.next].kind not in (*kinds, 'end'):
            self.advance()

    # ------------------------------------------------------------ symbols

    def key(self, word):
        """The key of a symbol's word. `YYerror` is another name of `error`."""
        if word.kind in ('string', 'translatable'):
            return ('string', word.value[0])
        if word.kind == 'literal':
            return ('literal', word.value)
        return ('identifier', 'error' if word.value == 'YYerror' else word.value)

    def symbol(self, key):
        return self.symbols.setdefault(key, Symbol())

    def is_a_token(self, key, span):
        """Says that a symbol is a token."""
        self.symbol(key).is_token = True
        self.tokens.setdefault(key, span)

    def note_declared(self, key, span):
        """Notes a token, after which its number may be."""
        number = self.words[self.next]
        self.declared_tokens.append((key, span, number.kind == 'number' and number.value == 0))

    def is_a_rule(self, word):
        """Says that a symbol is a rule."""
        if self.key(word)[1] in BUILT_IN:
            self.is_a_token(self.key(word), word.span)
        self.symbol(self.key(word)).is_rule = True

    def mention(self, word):
        """A symbol in a list that declares none, or in a production. Literals and strings are tokens all the same."""
        if word.kind != 'identifier' or self.key(word)[1] in BUILT_IN:
            self.is_a_token(self.key(word), word.span)

    def alias(self, key, word):
        """Gives a token its alias, unless it has one, or the string is that of another. The string is a token too."""
        string, symbol = self.key(word), self.symbol(key)
        self.is_a_token(string, word.span)
        if symbol.alias is None and string not in self.owners:
            symbol.alias, self.owners[string] = string, key
            self.aliases[key] = (word.value[0], word.span, word.value[1])

    # ------------------------------------------------------------ declarations

    def declarations(self):
        """The declarations and the first `%%`. Whether there is one."""
        while not self.take('%%'):
            try:
                self.declaration()
            except Unexpected:
                self.skip_to('%%', 'prologue', *PLACED)
                if self.words[self.next].kind == 'end':
                    return False
        return True

    def declaration(self):
        if not self.take(';', 'prologue'):
            self.at(*PLACED, called='declaration') or self.unexpected('declaration')
            self.declared()

    def declared(self):
        directive = self.advance().kind
        PLACED[directive](self, directive[1:])

    def tagged(self, item, missing):
        """Reads items, at least one, and one at least after each tag, which may also be before the first."""
        self.take('tag')
        item() or self.unexpected(missing)
        while item() or self.take('tag') and (item() or self.unexpected(missing)):
            pass

    def token_list(self, _):
        self.tagged(self.token_item, 'token')

    def token_item(self):
        word = self.take('identifier', 'literal')
        if word:
            key = self.key(word)
            self.is_a_token(key, word.span)
            self.listed.append((key, word.span))
            self.note_declared(key, word.span)
            self.take('number')
            alias = self.take('string', 'translatable')
            if alias:
                self.alias(key, alias)
        return word

    def rule_list(self, _):
        self.tagged(self.rule_item, 'identifier')

    def rule_item(self):
        """A name of a rule. What a token could have besides is a fault."""
        word = self.take('identifier', 'literal')
        if word and word.kind == 'literal':
            self.fault('NotForRules', word.span)
        elif word:
            self.is_a_rule(word)
            self.nonterminals.setdefault(self.key(word), word.span)
        for kinds in (('number',), ('string', 'translatable')):
            extra = word and self.take(*kinds)
            if extra:
                self.fault('NotForRules', extra.span)
        return word

    def type_list(self, _):
        self.tagged(self.type_item, 'symbol')

    def type_item(self):
        word = self.take(*SYMBOLS)
        if word:
            self.mention(word)
        return word

    def precedence_list(self, name):
        level = self.levels
        self.levels += 1
        self.tagged(lambda: self.precedence_item(level, name), 'symbol')

    def precedence_item(self, level, name):
        word = self.take(*SYMBOLS)
        if word:
            self.is_a_token(self.key(word), word.span)
            self.precedences.append((self.key(word), level, name, word.span))
            self.note_declared(self.key(word), word.span)
        if word and word.kind != 'string':
            self.take('number')
        return word

    def start_symbol(self, _):
        word = self.need(*SYMBOLS, missing='symbol')
        while word:
            if self.start is None:
                self.start = (self.key(word), word.span)
            elif self.start[0] != self.key(word):
                self.fault('SeveralStarts', word.span, None, [self.start[1]])
            self.mention(word)
            word = self.take(*SYMBOLS)

    def code_for_symbols(self, _):
        self.need('code')
        word = self.need(*SYMBOLS, 'tag', '<*>', '<>', missing='symbol or tag')
        while word:
            if word.kind in SYMBOLS:
                self.mention(word)
            word = self.take(*SYMBOLS, 'tag', '<*>', '<>')

    def named_code(self, _):
        self.take('identifier')
        self.need('code')

    def only_code(self, _):
        self.need('code')

    def codes(self, _):
        self.need('code')
        while self.take('code'):
            pass

    def default_precedence(self, name):
        self.has_default_precedence = name == 'default-prec'

    def variable(self, _):
        self.need('identifier')
        self.take('identifier', 'string', 'code')

    def number_of_conflicts(self, name):
        word = self.need('number')
        if name == 'expect':
            self.expect = (word.value, word.span)
        else:
            self.expectrr = (word.value, word.span)

    def only_string(self, _):
        self.need('string')

    def maybe_string(self, _):
        self.take('string')

    def flag(self, _):
        pass

    # ------------------------------------------------------------ rules

    def grammar(self):
        """The rules, and the declarations among them, each of which a `;` ends."""
        reads = False
        while not (reads and self.at('%%', 'end')):
            try:
                self.rule_or_declaration()
            except Unexpected:
                self.skip_to(';', '%%')
                while self.take(';'):
                    pass
            reads = True

    def rule_or_declaration(self):
        if self.at('head', called='rule'):
            self.rule()
            return
        self.at(*AMONG_RULES, called='declaration') or self.unexpected('rule')
        self.declared()
        self.need(';', missing='semicolon')

    def rule(self):
        head = self.advance()
        self.is_a_rule(head)
        self.rules.setdefault(self.key(head), head.span)
        self.take('name')
        self.need(':', missing='colon')
        self.production(self.key(head))
        while self.at('|', ';'):
            if self.advance().kind == '|':
                self.production(self.key(head))

    def production(self, rule):
        """Reads up to what can't be in a production. After a fault it goes on after the next `;`."""
        draft = Draft(self.words[self.next].span[0])
        try:
            while self.item(draft):
                pass
            self.ends_production() or self.unexpected('part')
        except Unexpected:
            self.skip_to(';', '%%')
            return
        for step in draft.later:
            step()
        if 'empty' in draft.once and draft.symbols:
            self.fault('NonEmptyProduction', draft.once['empty'])
        self.drafts.append((rule, draft, action_of(draft.pending)))

    def ends_production(self):
        is_over = self.at('|', ';', '%%', 'end') or self.at('head', called='rule')
        return is_over or self.at(*AMONG_RULES, called='declaration')

    def item(self, draft):
        """Reads an item of a production. Whether there is one."""
        word = self.take(*SYMBOLS)
        if word:
            self.symbol_of_production(draft, word)
        elif self.at('code', 'predicate', 'tag'):
            self.action(draft)
        elif self.at(*('%' + it for it in IN_PRODUCTIONS)):
            self.modifier(draft, self.advance())
        else:
            return False
        return True

    def symbol_of_production(self, draft, word):
        self.close_action(draft)
        draft.later.append(lambda: self.mention(word))
        draft.symbols.append((self.key(word), word.span))
        draft.later.append(lambda: self.used.append((self.key(word), word.span)))
        self.take('name')
        draft.end = self.words[self.next - 1].span[1]

    def action(self, draft):
        """Code with or without a tag and a name, or a predicate."""
        if self.take('tag'):
            self.at('code') or self.unexpected('code')
        word = self.advance()
        self.close_action(draft)
        draft.pending = word
        if word.kind == 'code':
            self.take('name')
        draft.pending_end = self.words[self.next - 1].span[1]

    def close_action(self, draft):
        """Makes the action before another symbol or action a rule of its own."""
        if draft.pending:
            code, draft.pending = draft.pending, None
            self.inner += 1
            key = ('inner', '$@%d' % self.inner)
            self.rules[key] = code.span
            self.drafts.append((key, Draft(code.span[0]), action_of(code)))
            draft.symbols.append((key, code.span))
            draft.end = max(draft.end, draft.pending_end)   # a %prec may come between

    def modifier(self, draft, word):
        """%prec, %empty or %dprec, each of which a production has once, or one of the others."""
        name = word.kind[1:]
        if name == 'prec':
            value = self.need(*SYMBOLS, missing='symbol')
            draft.later.append(lambda: self.is_a_token(self.key(value), value.span))
        elif name == 'merge':
            self.need('tag')
        elif name != 'empty':
            value = self.need('number')
            if name == 'dprec' and value.value == 0:
                draft.later.append(lambda: self.fault('IllegalPriority', value.span))
        if name in draft.once and name in ('prec', 'empty', 'dprec'):
            first = draft.once[name]
            draft.later.append(lambda: self.fault('RepeatedInProduction', word.span, name, [first]))
        elif name == 'prec':
            draft.precedence = self.key(value)
        draft.once.setdefault(name, word.span)
        draft.end = self.words[self.next - 1].span[1]


# what each declaration has after its directive
PLACED = {
    **{'%' + name: Reader.flag for name in FLAGS},
    **{'%' + name: Reader.only_string for name in WITH_STRING},
    **{'%' + name: Reader.precedence_list for name in ASSOCIATIVITIES},
    '%token': Reader.token_list, '%term': Reader.token_list, '%nterm': Reader.rule_list, '%type': Reader.type_list,
    '%start': Reader.start_symbol, '%destructor': Reader.code_for_symbols, '%printer': Reader.code_for_symbols,
    '%union': Reader.named_code, '%code': Reader.named_code, '%initial-action': Reader.only_code,
    '%param': Reader.codes, '%parse-param': Reader.codes, '%lex-param': Reader.codes,
    '%default-prec': Reader.default_precedence, '%no-default-prec': Reader.default_precedence,
    '%define': Reader.variable, '%defines': Reader.maybe_string, '%header': Reader.maybe_string,
    '%expect': Reader.number_of_conflicts, '%expect-rr': Reader.number_of_conflicts,
}
AMONG_RULES = tuple('%' + name for name in DECLARATIONS)


class Names:
    """What the symbols of a file that was read become."""

    def __init__(self, reader):
        self.reader = reader
        self.identifiers = {word.value for word in reader.words if word.kind in ('identifier', 'head')}

    def resolved(self, key):
        return self.reader.owners.get(key, key)

    def kind(self, key):
        """'token', 'rule', or None for a symbol of which the file says neither."""
        return 'rule' if key[0] == 'inner' else self.reader.symbol(self.resolved(key)).kind

    def is_own(self, key):
        """Whether the token is one of Bison's own."""
        kind, value = self.resolved(key)
        return kind == 'identifier' and value in BUILT_IN

    def name(self, key):
        """A literal is its character, unless an identifier has that name; a string without a token keeps its quotes."""
        kind, value = self.resolved(key)
        if kind == 'string':
            return '"%s"' % value
        return "'%s'" % value if kind == 'literal' and value in self.identifiers else value


def rule_spans(reader, names):
    """The name of each rule, with its span: those of %nterm that have no production come last."""
    spans = {}
    for key, span in [*reader.rules.items(), *reader.nonterminals.items()]:
        spans.setdefault(names.name(key), (key, span))
    return spans


def check_names(reader, names):
    """Adds the faults of names. What is missing is no fault if a part of the text was skipped, which may have it."""
    is_whole = all(fault.kind in OF_NAMES for fault in reader.faults)
    tokens = {}
    for key, span in reader.tokens.items():
        tokens.setdefault(names.name(key), span)
    for name, (key, span) in rule_spans(reader, names).items():
        if names.kind(key) == 'token':
            reader.fault('RuleIsToken', span, name, [tokens[name]])
    first = {}
    for key, _, _, span in reader.precedences:
        if first.setdefault(names.resolved(key), span) != span:
            reader.fault('DuplicatePrecedence', span, names.name(key), [first[names.resolved(key)]])
    if is_whole:
        check_missing(reader, names)


def check_missing(reader, names):
    missing = set()
    for key, span in reader.used:
        if names.kind(key) is None and key not in missing:
            missing.add(key)
            reader.fault('UnknownSymbol', span, key[1])
    if not reader.rules:
        reader.fault('NoRule', (0, 0))
    if reader.start and names.name(reader.start[0]) not in rule_spans(reader, names):
        reader.fault('InvalidStart', reader.start[1], names.name(reader.start[0]))


def tree_of(reader, names, epilogue):
    """The tree of what was read."""
    tree = Tree()
    first = next(iter(reader.rules.items()), None)
    start = reader.start or first
    tree.start = start and (names.name(start[0]), start[1])
    tree.expect, tree.expectrr = reader.expect, reader.expectrr
    tree.has_default_precedence = reader.has_default_precedence
    for key, span in reader.tokens.items():
        token = tree.tokens.setdefault(names.name(key), Token(span))
        token.alias = reader.aliases.get(names.resolved(key))
    listed = set()
    for name, span in ((names.name(key), span) for key, span in reader.listed):
        if name in listed:
            tree.listed_again.append((name, span))
        listed.add(name)
    tree.unneeded = [(names.name(key), span) for key, span, is_end in reader.declared_tokens if is_end or names.is_own(key)]
    tree.end = next((names.name(key) for key, _, is_end in reader.declared_tokens if is_end), tree.end)
    for key, level, name, span in reader.precedences:
        tree.precedences.setdefault(names.name(key), (level, ASSOCIATIVITIES[name], span))
        if name == 'precedence' and names.name(key) not in tree.only_precedence:
            tree.only_precedence.append(names.name(key))
    for name, (_, span) in rule_spans(reader, names).items():
        tree.rules[name] = Rule(span)
    for key, draft, action in reader.drafts:
        tree.rules[names.name(key)].productions.append(len(tree.productions))
        symbols = [(names.kind(it) == 'token', names.name(it), span) for it, span in draft.symbols]
        tree.productions.append(Production(
            (draft.begin, draft.end), symbols, draft.precedence and names.name(draft.precedence), action))
    tree.programs = None if epilogue is None else epilogue.decode('utf-8', 'replace')
    return tree


def errors_in_order(faults):
    """The faults of the text, and then those of names, each by their offsets."""
    return sorted(faults, key=lambda fault: (fault.kind in OF_NAMES, fault.span[0]))


def read(t):
    """What was read of a text, and its errors."""
    words, faults, epilogue = words_of(t)
    reader = Reader(words, faults)
    if reader.declarations():
        reader.grammar()
    names = Names(reader)
    check_names(reader, names)
    return tree_of(reader, names, epilogue), errors_in_order(faults)
