"""Errors and findings as programs read them: "Errors as JSON"."""
import json

from .faults import position
from .rendered import begins_character


def numbers(t, offset):
    """The line and the column of an offset, or nothing of an offset that is no character boundary of the text."""
    if offset > len(t) or offset < len(t) and not begins_character(t[offset]):
        return None, None
    return position(t, offset)


def place(t, span):
    (line, column), (end_line, end_column) = (numbers(t, offset) for offset in span)
    return {'line': line, 'column': column, 'end_line': end_line, 'end_column': end_column, 'start': span[0], 'end': span[1]}


# the errors and the findings whose spans are names of symbols
WITH_SYMBOLS = ('unused-rule', 'unused-token', 'shadowed-rule', 'start-without-sentence', 'no-sentence', 'unusable-rule', 'useless-symbol',
                'cyclic-rule', 'unused-precedence', 'repeated-token', 'overridden-precedence', 'glued-keyword', 'needless-expect-unused',
                'escaped-token', 'swallowed-rule', 'invalid-start-rule', 'unknown-rule', 'unknown-token', 'unknown-epp',
                'undeclared-symbol')


def symbol(t, span):
    """The text at a span, which is empty if the span doesn't start and end at character boundaries."""
    has_ends = all(numbers(t, offset)[0] is not None for offset in span)
    return t[slice(*span)].decode('utf-8') if has_ends else ''


def line_of(name, t, severity, kind, text, spans, note=None):
    """The line of an error or a finding in a text of this name: an object without spaces, sorted by the names of its members."""
    found = {'file': name, 'severity': severity, 'kind': kind, 'text': text, 'places': [place(t, span) for span in spans]}
    found.update({} if note is None else {'hint': note})
    found.update({'symbols': [symbol(t, span) for span in spans]} if kind in WITH_SYMBOLS else {})
    return json.dumps(found, ensure_ascii=False, separators=(',', ':'), sort_keys=True)
