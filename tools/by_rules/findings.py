"""The issues of a file without errors: "Findings"."""
import re

from .bison_words import Scanner
from .conflict_findings import conflict_findings
from .costs import Costs
from .cycles import Cycles
from .near import nearest
from .section import section
from .unused import TEXTS, unused_of


class Finding:
    """A finding: its kind, its spans, its text, and the note on it or None."""

    def __init__(self, kind, spans, text, note=None):
        self.kind, self.spans, self.text, self.note = kind, spans, text, note

    def spans_kind(self):
        several = ('ShadowedRule', 'StartWithoutSentence', 'NoSentence', 'CyclicRule', 'RepeatedProduction', 'ShiftReduce',
                   'ReduceReduce')
        return 'DuplicationError' if self.kind in several else 'Error'


# the keywords of lists of names
KEYWORDS = (b'%token', b'%left', b'%right', b'%nonassoc', b'%avoid_insert', b'%implicit_tokens')
# the keys of a section that programs look for
KEYS = ('yacckind', 'recoverer', 'test_files')
# the variables of %define, and the values of those whose values are words
VARIABLES = ('api.filename.type', 'api.header.include', 'api.location.file', 'api.location.include', 'api.location.type',
             'api.namespace', 'api.package', 'api.parser.abstract', 'api.parser.annotations', 'api.parser.class', 'api.parser.extends',
             'api.parser.final', 'api.parser.implements', 'api.parser.public', 'api.parser.strictfp', 'api.position.file',
             'api.position.type', 'api.prefix', 'api.pure', 'api.push-pull', 'api.symbol.prefix', 'api.token.constructor',
             'api.token.prefix', 'api.token.raw', 'api.value.automove', 'api.value.type', 'api.value.union.name',
             'lr.default-reduction', 'lr.default-reductions', 'lr.keep-unreachable-state', 'lr.keep-unreachable-states', 'lr.type',
             'parse.assert', 'parse.error', 'parse.lac', 'parse.lac.es-capacity-initial', 'parse.lac.memory-trace', 'parse.trace')
VALUES = {'parse.error': ('custom', 'detailed', 'simple', 'verbose'), 'parse.lac': ('none', 'full'),
          'lr.type': ('lalr', 'ielr', 'canonical-lr'), 'lr.default-reduction': ('most', 'consistent', 'accepting'),
          'api.push-pull': ('pull', 'push', 'both'), 'api.value.type': ('union', 'union-directive', 'variant')}


def findings_of(t, tree, grammar, is_printed):
    """The findings of a text, its tree and its numbered grammar. Of several shortest cycles of a rule the first that is printed is taken, and
    any if none is."""
    found = (unused(tree) + shadowed(tree) + unproductive(tree, grammar) + useless(grammar) + cycles(grammar, is_printed) + repeats(grammar)
             + idle(tree) + declared_again(tree) + overridden(tree) + glued(t, tree) + needless(tree, grammar) + escapes(tree)
             + implicitly_empty(t, tree) + [Finding(*it) for it in conflict_findings(tree)] + undefined_precedences(tree)
             + missing_empty(t, tree) + swallowed(tree) + unknown_keys(t) + unknown_references(t, tree)
             + unread_values(tree) + misspelled_defines(t) + repeated_aliases(t) + stray_commas(t))
    return sorted(found, key=lambda finding: finding.spans[0][0])


def unused(tree):
    """The warnings, but for shadowed rules, and for the tokens that a production's `%prec` names."""
    others = {'UnusedRule': shadowing(tree), 'UnusedToken': {p.precedence for p in tree.productions}}
    return [Finding(kind, [span], "%s '%s'" % (TEXTS[kind], n)) for kind, n, span in unused_of(tree) if n not in others[kind]]


def shadowing(tree):
    """For each shadowed rule, by its name, where the token first occurs."""
    contained = {n for p in tree.productions for is_token, n, _ in p.symbols if not is_token}
    is_used = lambda n: n in contained or n == tree.start[0] and n not in tree.declared
    return {n: tree.tokens[n] for n in tree.rules if n in tree.tokens and not is_used(n)}


def shadowed(tree):
    """Rules that are never used, since a token has their name."""
    text = "Rule '%s' is never used: its name is that of a token"
    return [Finding('ShadowedRule', [tree.rules[n].span, span], text % n) for n, span in shadowing(tree).items()]


def rules_of_file(grammar):
    """The indices of the rules that the file has."""
    return range(3 if grammar.has_implicit else 1, len(grammar.rules))


def least_costs(grammar):
    """The least cost of each rule, and None of one that is unproductive."""
    return Costs(grammar, [1] * (len(grammar.tokens) + 1)).least


def depended(grammar, least, rule):
    """The unproductive rules that an unproductive one depends on, with itself: what was found grows until nothing is new."""
    found = {rule}
    while (after := found.union(*({index for what, index in p.symbols if what == 'rule' and least[index] is None}
                                  for p in grammar.productions if p.rule in found))) != found:
        found = after
    return found


def without_sentence(tree, grammar, rule, depends):
    """What is reported at an unproductive rule, if anything is. `depends` has what each unproductive rule depends on."""
    name, is_start = grammar.rules[rule].name, lambda it: grammar.rules[it].name == tree.start[0]
    is_root = all(rule in depends[it] for it in depends[rule])
    group = [it for it in rules_of_file(grammar) if is_root and it in depends[rule]]
    spans = [grammar.rules[it].span for it in [rule] + [it for it in group if it != rule]]
    if is_start(rule):
        return [Finding('StartWithoutSentence', spans, "No sentence can be derived from the start rule '%s'" % name)]
    if not is_root:
        text = "Unusable rule '%s': each of its productions has a rule without a sentence"
        return [Finding('UnusableRule', spans, text % name)]
    if rule != group[0] or any(map(is_start, group)):
        return []
    return [Finding('NoSentence', spans, "Rule '%s' has no sentence" % name)]


def unproductive(tree, grammar):
    """Unproductive rules, and then unusable productions of productive rules."""
    least = least_costs(grammar)
    name = lambda rule: grammar.rules[rule].name
    depends = {rule: depended(grammar, least, rule) for rule in range(len(grammar.rules)) if least[rule] is None}
    found = [finding for rule in depends if rule in rules_of_file(grammar)
             for finding in without_sentence(tree, grammar, rule, depends)]
    for p in grammar.productions[:grammar.start_production]:
        inside = [index for what, index in p.symbols if what == 'rule' and least[index] is None]
        if inside and least[p.rule] is not None:
            text = "Unusable production: rule '%s' has no sentence" % name(inside[0])
            found.append(Finding('UnusableProduction', [p.span], text))
    return found


def useless(grammar):
    """Productive rules, and then tokens, that the start rule reaches, but not by usable productions. There are none if the start rule
    is unproductive."""
    least = least_costs(grammar)
    if least[0] is None:
        return []
    usable = [p for p in grammar.productions if all(what == 'token' or least[index] is not None for what, index in p.symbols)]
    only_unusably = reached(grammar.productions) - reached(usable)
    names = ([('Rule', rule, grammar.rules[rule].name, grammar.rules[rule].span) for rule in rules_of_file(grammar)
              if least[rule] is not None]
             + [('Token', token, *name_and_span) for token, name_and_span in enumerate(grammar.tokens)])
    return [Finding('UselessSymbol', [span], "%s '%s' is reached only through unusable productions" % (what, name))
            for what, index, name, span in names if (what.lower(), index) in only_unusably]


def reached(productions):
    """The symbols that these productions reach from the start rule: what was reached grows until nothing is new."""
    symbols = {('rule', 0)}
    while (after := symbols.union(*(p.symbols for p in productions if ('rule', p.rule) in symbols))) != symbols:
        symbols = after
    return symbols


def cycles(grammar, is_printed):
    """Groups of cyclic rules on common cycles, each with a shortest cycle of its first rule of the file."""
    all_cycles, found, known = Cycles(grammar), [], set()
    for rule in rules_of_file(grammar):
        group = [] if rule in known else [it for it in all_cycles.together(rule) if it in rules_of_file(grammar)]
        known.update(group)
        if group:
            name = grammar.rules[rule].name
            prefix = "Rule '%s' derives itself: %s" % (name, name)
            texts = [prefix + all_cycles.text(path) for path in all_cycles.shortest(rule)]
            text = next(filter(is_printed, texts), texts[0])
            found.append(Finding('CyclicRule', [grammar.rules[it].span for it in group], text))
    return found


def repeats(grammar):
    """Productions with the same symbols as an earlier one of their rule."""
    first, found = {}, []
    for p in grammar.productions[:grammar.start_production]:
        twin = first.setdefault((p.rule, tuple(p.symbols)), p)
        if twin is not p:
            text = "Repeated production of rule '%s': each sentence by it has two trees"
            found.append(Finding('RepeatedProduction', [p.span, twin.span], text % grammar.rules[p.rule].name))
    return found


def idle(tree):
    """Precedences of names that are no token in a production, no token of a `%prec`, and no implicit token."""
    known = {n for p in tree.productions for is_token, n, _ in p.symbols if is_token}
    known |= {p.precedence for p in tree.productions} | set(tree.implicit_tokens or {})
    text = "Unused precedence: token '%s' is not a symbol of any production, and none takes its precedence from it"
    return [Finding('UnusedPrecedence', [span], text % n)
            for n, (_, _, span) in tree.precedences.items() if n not in known]


def declared_again(tree):
    """Tokens of `%token` lists that such lists have before."""
    text = "Repeated token '%s': a %%token list has it before"
    return [Finding('RepeatedToken', [span], text % n) for n, span in tree.declared_again]


def overridden(tree):
    """Tokens of `%prec`s that a later one of their production overrides."""
    text = "Overridden precedence: a later %%prec of the production counts, and not that of token '%s'"
    return [Finding('OverriddenPrecedence', [span], text % n) for n, span in tree.overridden]


def glued(t, tree):
    """Tokens, precedences and repeated tokens right after the keyword of their declaration, with no quote between."""
    words = [*tree.tokens.items(), *((n, span) for n, (_, _, span) in tree.precedences.items()), *tree.declared_again]
    found = [(keyword.decode(), n, span) for n, span in words for keyword in KEYWORDS
             if t[:span[0]].endswith(keyword) and not t.startswith((b"'", b'"'), span[0])]
    return [Finding('GluedKeyword', [span], "'%s%s' is read as '%s %s'" % (keyword, n, keyword, n)) for keyword, n, span in found]


def needless(tree, grammar):
    """Symbols of `%expect-unused` lists that the start rule reaches."""
    used = {(what, grammar.rules[index].name if what == 'rule' else token_name(grammar, index))
            for what, index in reached(grammar.productions)}
    words = [('token' if is_token else 'rule', n, span) for is_token, n, span in tree.unused]
    return [Finding('NeedlessExpectUnused', [span], "Needless %%expect-unused: %s '%s' is used" % (what, n))
            for what, n, span in words if (what, n) in used]


def token_name(grammar, index):
    """The name of a token, or None of the end token."""
    return grammar.tokens[index][0] if index < len(grammar.tokens) else None


def escapes(tree):
    """Tokens whose names begin with a backslash and go on after it."""
    text = "Token '%s' begins with a backslash: a quoted text has no escapes"
    return [Finding('EscapedToken', [span], text % n) for n, span in tree.tokens.items() if n[0] == '\\' and len(n) > 1]


def implicitly_empty(t, tree):
    """Productions without symbols that begin neither with `%empty` nor with `%prec`, but for actions inside of others."""
    return [Finding('ImplicitEmpty', [span], 'Empty production without %empty') for span in silently_empty(t, tree)]


def silently_empty(t, tree):
    """The spans of these productions."""
    actions = {index for name, rule in tree.rules.items() if name.startswith('$@') for index in rule.productions}
    empty = [p for index, p in enumerate(tree.productions) if not p.symbols and index not in actions]
    return [p.span for p in empty if not t.startswith((b'%empty', b'%prec'), p.span[0])]


def missing_empty(t, tree):
    """The same productions, if another one without symbols begins with `%empty`."""
    if not any(not p.symbols and t.startswith(b'%empty', p.span[0]) for p in tree.productions):
        return []
    text = 'Empty production without %empty, which another one has'
    return [Finding('MissingEmpty', [span], text) for span in silently_empty(t, tree)]


def undefined_precedences(tree):
    """Productions whose `%prec` names a token without a precedence: a Bison file may have some."""
    text = "Undefined precedence: no %%left, %%right, %%nonassoc or %%precedence names token '%s'"
    return [Finding('UndefinedPrecedence', [p.span], text % p.precedence) for p in tree.productions
            if p.precedence is not None and p.precedence not in tree.precedences]


def swallowed(tree):
    """Rules in whose type a `->` follows a `;`, without a `]` between."""
    text = "The type of rule '%s' goes on over a ';' and a '->': a ':' may be missing after the type"
    return [Finding('SwallowedRule', [rule.span], text % n) for n, rule in tree.rules.items()
            if rule.action_type is not None and re.search(r';[^\]]*->', rule.action_type)]


def unknown_keys(t):
    """Keys of the section that no program looks for."""
    values, errors, _ = section(t, False)
    return [Finding('UnknownKey', [span], "Unknown key '%s' in the section" % key,
                    nearest(key, KEYS) or "the keys are 'yacckind', 'recoverer' and 'test_files'")
            for key, (span, _) in values.items() if key not in KEYS and not errors]


SKIPPED = rb'//[^\n]*|/\*(?:(?!\*/).)*(?:\*/)?|"(?:\\.|[^"\\])*["\\]?|\'(?:\\.|[^\'\\])*[\'\\]?'


def references(code):
    """The references of an action's code: where each begins, and its number."""
    found = re.finditer(SKIPPED + rb'|(?P<sign>[$@])(?=(?:<[^>]*>)?(?P<number>[0-9]+))|.', code, re.S)
    return [(it.start(), min(int(it['number']), 2 ** 64 - 1)) for it in found if it['sign']]


def unknown_references(t, tree):
    """Actions that refer to symbols which don't come before them."""
    inner = {name: place for p in tree.productions for place, (is_token, name, _) in reversed([*enumerate(p.symbols)])
             if not is_token and name.startswith('$@')}
    rules = {index: name for name, rule in tree.rules.items() for index in rule.productions}
    found = []
    for index, p in enumerate(tree.productions):
        if p.action is None:
            continue
        limit = inner.get(rules[index], len(p.symbols))
        code, span = p.action
        code = code if isinstance(code, bytes) else code.encode()
        for offset, number in references(code):
            if number > limit:
                start = span[0] + re.match(rb'[ \t-\r]*', t[span[0]:]).end() + offset
                sign = chr(code[offset])
                last = "the last symbol before it is '%s%d'" % (sign, limit) if limit else 'no symbol is before it'
                found.append(Finding('UnknownReference', [(start, start + 1)],
                                     "Unknown reference '%s%d': %s" % (sign, number, last)))
                break
    return found


def values(code):
    """What the references to values in code name: `$`, a number, a minus, or a name, of which the first byte counts."""
    found = re.finditer(SKIPPED + rb'|[$](?=(?:<[^>]*>)?(?P<what>[$A-Za-z_\[-]|[0-9]+))|.', code, re.S)
    return {int(it['what']) if it['what'].isdigit() else chr(it['what'][0]) for it in found if it['what']}


def unread_values(tree):
    """Actions inside of productions that set `$$`, where none of those after it in the production reads the value, or has a name. There are
    none in a file where an action refers to a value from before its production."""
    rules = {index: name for name, rule in tree.rules.items() for index in rule.productions}
    actions = [values(p.action[0] if isinstance(p.action[0], bytes) else p.action[0].encode()) if p.action else set() for p in tree.productions]
    if any({'-', 0} & refers for refers in actions):
        return []
    places = {name: (index, place) for index, p in enumerate(tree.productions)
              for place, (is_token, name, _) in enumerate(p.symbols, 1) if not is_token}
    found = []
    for index, p in enumerate(tree.productions):
        if not rules[index].startswith('$@') or '$' not in actions[index]:
            continue
        whole, place = places[rules[index]]
        read = set().union(*actions[index + 1:whole + 1])
        if not any(it == place or isinstance(it, str) and it not in '$-' for it in read):
            found.append(Finding('UnreadValue', [p.span], "Unread value '$$': no later action has '$%d'" % place,
                                 "a '|' may be missing after this action"))
    return found


def misspelled_defines(t):
    """Each `%define` with a variable, or else a value, that Bison doesn't know, but near to one that it knows."""
    words, found = Scanner(t).read().words, []
    for index, word in enumerate(words):
        if word.kind != '%define' or words[index + 1].kind != 'identifier':
            continue
        variable, wrong, names = words[index + 1].value, words[index + 1], VARIABLES
        if variable in VARIABLES:
            wrong, names = words[index + 2], VALUES.get(variable, ())
        note = nearest(wrong.value, names) if wrong.kind == 'identifier' and wrong.value not in names else None
        if note:
            found.append(Finding('MisspelledDefine', [wrong.span], "Misspelled %%define: '%s' is unknown" % wrong.value, note))
    return found


def repeated_aliases(t):
    """Each string in a `%token` list that such a list has before."""
    found, known, is_listed = [], set(), False
    for word in Scanner(t).read().words:
        if word.kind.startswith('%') or word.kind == ';':
            is_listed = word.kind in ('%token', '%term')
        elif is_listed and word.kind in ('string', 'translatable'):
            name, _ = word.value
            if name in known:
                found.append(Finding('RepeatedAlias', [word.span], 'Repeated alias "%s": a token has it already' % name))
            known.add(name)
    return found


def stray_commas(t):
    """Each comma that follows a word other than `%%`, maybe after white space."""
    found = []
    for word in Scanner(t).read().words:
        comma = re.compile(rb'[ \t-\r]*(?=,)').match(t, word.span[1])
        if comma and word.kind != '%%':
            found.append(Finding('StrayComma', [(comma.end(), comma.end() + 1)], "Stray ',': it is read as a blank"))
    return found
