"""Which lines of docs/DIFFERENCES.md explain the answer of the Rust crate to a row: for tools/beside and tools/original_rows.

Answers are lists of lines, as the program of rows prints them, without the text of the row, and for costs without the chosen
productions, which the crate doesn't show."""
import re
import sys
from contextlib import ExitStack
from unittest import mock

from by_rules.original import DIFFERENCES, NeverEnds, OriginalCosts, OriginalGrammar, Panics, Answered, answering_as
from by_rules.printed import costs, texts as rows

sys.setrecursionlimit(20000)


def row_of(spelled):
    """The row of this text."""
    lines = spelled.rstrip('\n').split('\n')
    row = rows.Row(*lines[0].split(' ', 1))
    for line in lines[1:]:
        word, _, rest = line[2:].partition(' ')
        if row.type not in ('lines', 'marks') or word in rows.TEXT:
            row.add(word, rest, None)
    return row


def normal(row, answered):
    """The output of the program of rows, without what the crate doesn't show."""
    lines = [line for line in answered if not line.startswith('    |')]
    if row.type == 'lines':                        # only for a text that is fed as a whole
        return [line for line in lines if not line.startswith(('fed in ', 'of its lines'))]
    if row.type != 'generator':
        return lines
    lines[0] = head_of_costs(row)
    return [re.sub(r'; production (?:none|\d+ at \d+); sentence ', '; sentence ', line) for line in lines]


def head_of_costs(row):
    return 'costs of %d bytes' % len(row.text())


# ---------------------------------------------------------------- answers by the rules, with some of the differences

def by_rules(row, names=(), answered=Answered()):
    """The answer to a row by the rules with these differences."""
    answer = costs_answer if row.type == 'generator' else row_answer
    try:
        with answering_as(names, answered):
            return answer(row, names, answered)
    except Panics:
        return ['panics']
    except NeverEnds:
        return ['no end']


def row_answer(row, names, answered):
    with ExitStack() as stack:
        stack.enter_context(mock.patch.object(rows, 'Grammar', lambda tree: OriginalGrammar(tree, names, answered)))
        lines = rows.transcript(row)[1 + len(row.notes):]
    lines = [line for line in lines if not line.startswith('    |')]
    if row.type == 'section':
        return lines
    if 'added-productions' in names:
        lines = with_panics(lines)
    return with_other_types(row, lines, answered) if 'index-type' in names else lines


ADDED = re.compile(r'    production (\d+) \(0,0\)( of rule .*)')


def with_panics(lines):
    """The lines of tables if the crate's calls on added productions panic, except for the action of the first one."""
    start, out = None, []
    for line in lines:
        lengths = re.match(r'    rules \d+, start \d+; productions \d+, start (\d+);', line)
        start = int(lengths[1]) if lengths else start
        added = ADDED.fullmatch(line)
        if added and start is not None and int(added[1]) >= start:
            action = 'none' if int(added[1]) == start else 'panics'
            line = '    production %s panics%s, action %s, action_span panics' % (*added.groups(), action)
        out.append(line)
    return out


def with_other_types(row, lines, answered):
    """The lines if an index type that is too small isn't refused: the crate panics if the file has more than it counts, and returns
    anything if only what is added is too much."""
    named = rows.KINDS[row.kind] or rows.named_kind(row.text())[0]
    out = []
    for at, line in enumerate(lines):
        over = re.fullmatch(r'grammar over (u\d+): refused', line)
        if over and lines[at + 1:at + 2] and 'StorageTooSmall' in lines[at + 1]:
            tree, _ = rows.errors_of(rows.family(named), row.text())
            out += other_type(over[1], tree, answered)
        elif not line.startswith('    StorageTooSmall'):
            out.append(line)
    return out


def other_type(over, tree, answered):
    limit = dict(rows.LIMITS)[over]
    counts = [len(tree.rules), len(tree.tokens), len(tree.productions), *(len(it.symbols) for it in tree.productions)]
    title = 'grammar over ' + over
    if max(counts) > limit:
        return [title + ': panics']
    begin = next((at for at, line in enumerate(answered.lines) if re.match(title + r'(:|$)', line)), None)
    if begin is None:
        return [title + ': anything']
    end = next((at for at in range(begin + 1, len(answered.lines)) if not answered.lines[at].startswith('    ')), len(answered.lines))
    return answered.lines[begin:end]


def costs_answer(row, names, answered):
    t, kind = row.text(), rows.family(rows.KINDS[row.kind])
    tree, errors = costs.errors_of(kind, t)
    if errors:
        return [head_of_costs(row), 'no grammar']
    grammar = OriginalGrammar(tree, names, answered)
    listed = dict(row.requests).get('costs', ())
    each = ([int(it) for it in listed] + [1] * (len(grammar.tokens) + 1))[:len(grammar.tokens) + 1]
    found = OriginalCosts(grammar, each, names)
    tokens = [' %s %d' % (rows.quoted_debug(name), cost) for (name, _), cost in zip(grammar.tokens, each)]
    return [head_of_costs(row), '    tokens:%s end %d' % (''.join(tokens), each[-1]),
            *(rule_line(row, found, rule, answered) for rule in range(len(grammar.rules)))]


def rule_line(row, found, rule, answered):
    name, requested = found.grammar.rules[rule].name, dict(row.requests).get('sentences')
    least, greatest = cost_text(found.least, found.least_in_crate, rule), cost_text(found.greatest, found.greatest_in_crate, rule)
    line = '    rule %d %s: least %s, greatest %s; sentence %s' % (rule, name, least, greatest, sentence_text(found, rule, least))
    return line + ('; all ' + all_text(found, rule, answered) if requested is None or name in requested else '')


def cost_text(by_rules, in_crate, rule):
    """The cost of a rule: in the crate, if it computes costs differently, or else by the rules."""
    if isinstance(in_crate, str):
        return in_crate
    return costs.cost_text((by_rules if in_crate is None else in_crate)[rule])


def sentence_text(found, rule, least):
    if isinstance(found.least_in_crate, str):
        return found.least_in_crate
    if 'first-sentence' in found.names and not isinstance(found.least_by_rounds(), str):
        sentences = found.all_first_in_crate()
        return 'no end' if sentences is None else costs.tokens_text(sentences[rule])
    return costs.tokens_text(first_sentences(found)[rule]) if found.has_cost(rule) else least


def first_sentences(found):
    if not hasattr(found, 'first'):
        found.first = found.first_sentences()
    return found.first


def all_text(found, rule, answered):
    """The minimal sentences; or those of the crate's answer, if they differ only in their order and in repeats."""
    if not found.has_cost(rule):
        return costs.cost_text(found.least[rule])
    listed = found.minimal_sentences(rule)
    texts = [costs.tokens_text(it) for it in listed]
    in_crate = answered.sentences(rule) if 'all-sentences' in found.names else None
    if in_crate is not None:
        counted = re.fullmatch(r'(\d+), (\d+) of them different', in_crate)
        if counted and int(counted[2]) == len(listed) or in_crate == str(len(listed)):
            return in_crate
        if set(re.findall(r'\[.*?\]|\d+ tokens', in_crate)) == set(texts):
            return in_crate
    return str(len(listed)) if len(listed) > costs.LISTED else ' '.join(texts)


# ---------------------------------------------------------------- lines, columns and marked maps

def of_lines(row, crate, port):
    """Why a line of the answers on lines and columns differs."""
    t, byte, span = row.text(), re.match(r'    (\d+): ', crate), re.match(r'    lines of \(\d+,\d+\): ', crate)
    if span and port.startswith(span[0]):
        ends = [re.fullmatch(r'\((\d+),(\d+)\)', line[span.end():]) for line in (crate, port)]
        runs_on = ends[0] and ends[0][1] == ends[1][1] and int(ends[0][2]) > int(ends[1][2])
        return 'span-lines' if runs_on or crate.endswith('panics') else None
    if byte and int(byte[1]) not in rows.character_ends(t) and port == re.sub(r', at \d+:\d+$', ', no column', crate):
        begin = t.rfind(b'\n', 0, int(byte[1])) + 1
        column = len(t[begin:].decode().replace('\r\n', '\n'))
        return 'column-inside' if crate.endswith(':%d' % column) else None
    return None


def of_marks(_, crate, port):
    """Why a line of the answers on marked maps differs: the entries end at a key with marks but no value, or a key has lost its value
    and keeps its marks."""
    lists = [re.fullmatch(r'        keys(.*); entries(.*); unused(.*); missing(.*)', line) for line in (crate, port)]
    if all(lists):
        entries = [it[2] for it in lists]
        ends_early = entries[0] != entries[1] and entries[1].startswith(entries[0])
        if ends_early and lists[0][1] == lists[1][1]:
            return 'marked-iteration'
        return 'merge-theirs' if len(lists[0][1]) < len(lists[1][1]) else None
    keys = zip(*(line.split(' [') for line in (crate, port)), strict=True)
    lost = [re.sub(r' \d+( used)?( required)?, mark \d+\]', r' -\1\2]', ours) == theirs for theirs, ours in keys if theirs != ours]
    return 'merge-theirs' if all(lost) else None


def by_pairs(why, row, crate, port):
    """The names by which pairs of lines differ, or None."""
    names = [why(row, *pair) for pair in zip(crate, port) if pair[0] != pair[1]]
    return None if len(crate) != len(port) or None in names else sorted(set(names))


# ---------------------------------------------------------------- why the two differ

def explained(row, crate, port):
    """The names of the differences that explain the answers of the crate and of the port, or None if the rules don't give these
    answers. No name can be left out."""
    if crate == port:
        return []
    if row.type in ('lines', 'marks'):
        return by_pairs(of_lines if row.type == 'lines' else of_marks, row, crate, port)
    if row.type == 'row' and with_panics(port) == crate:
        return ['added-productions']
    answered = Answered(crate)
    if by_rules(row) != port or by_rules(row, DIFFERENCES, answered) != crate:
        return None
    names = list(DIFFERENCES)
    for name in DIFFERENCES:
        fewer = [it for it in names if it != name]
        if by_rules(row, fewer, answered) == crate:
            names = fewer
    return names
