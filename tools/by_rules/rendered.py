"""Errors and findings as people read them: "Errors as people read them"."""
import unicodedata

from .faults import position


def begins_character(byte):
    return byte & 0xC0 != 0x80


WIDTH, LEAD = 160, 40


# The format characters that Unicode 15.0 added; Python before 3.12 doesn't know them.
ADDED = range(0x13439, 0x13440)


def is_escaped(c):
    """Whether a character is a control character other than a tab, or a format character."""
    return c != '\t' and unicodedata.category(c) in ('Cc', 'Cf') or ord(c) in ADDED


def visible(text):
    """A text with the escape of each such character in its place."""
    return ''.join('\\u{%x}' % ord(c) if is_escaped(c) else c for c in text)


def width(c):
    """How many columns of a terminal a character takes. Characters that few files have may take others there."""
    if unicodedata.category(c) in ('Cc', 'Cf', 'Mn', 'Me') and c != '\u00ad':
        return 0
    return 2 if unicodedata.east_asian_width(c) in 'WF' else 1


def placed(t, offset, columns):
    """The line of an offset, and its column in this unit."""
    line, column = position(t, offset)
    if columns == 'characters':
        return line, column
    before = t[t.rfind(b'\n', 0, offset) + 1:offset]
    if t[offset:offset + 1] == b'\n' and before.endswith(b'\r'):
        before = before[:-1]
    if columns == 'bytes':
        return line, len(before) + 1
    shown = 0
    for c in before.decode('utf-8'):
        shown = shown // 8 * 8 + 8 if c == '\t' else shown + width(c)
    return line, shown + 1


def shown(name, t, message, span, columns):
    """A message at a span, the line in which the span starts, and carets under it."""
    start, end = span
    if start > len(t) or start < len(t) and not begins_character(t[start]):
        return ['%s: %s' % (visible(name), visible(message))]
    begin, stop = t.rfind(b'\n', 0, start) + 1, (t + b'\n').find(b'\n', start)
    if stop < len(t) and t[begin:stop].endswith(b'\r'):
        stop -= 1
    line, before = t[begin:stop].decode('utf-8'), t[begin:min(start, stop)].decode('utf-8')
    covered = sum(map(begins_character, t[start:min(end, stop)]))
    first = max(0, len(before) - LEAD) if len(line) > WIDTH else 0
    last = min(len(line), first + WIDTH)
    cut, is_long = '...' if first else '', '...' if last < len(line) else ''
    under = ' ' * len(cut) + ''.join('\t' if c == '\t' else ' ' * len(visible(c)) for c in before[first:])
    carets = len(visible(line[len(before):min(len(before) + covered, last)])) or 1
    head = '%s:%d:%d: %s' % (visible(name), *placed(t, start, columns), visible(message))
    return [head, cut + visible(line[first:last]) + is_long, under + '^' * carets]


def note(name, t, words, offset, columns):
    """The line of a note at an offset of the text."""
    if offset > len(t) or offset < len(t) and not begins_character(t[offset]):
        return '%s: note: %s' % (visible(name), visible(words))
    return '%s:%d:%d: note: %s' % (visible(name), *placed(t, offset, columns), visible(words))


def rendered(name, t, message, spans, spans_kind, columns='characters'):
    """The lines that show an error, a warning or a finding in a text of this name."""
    also = spans[1:] if spans_kind == 'DuplicationError' else []
    return shown(name, t, message, spans[0], columns) + [
        line for span in also for line in shown(name, t, 'note: also here', span, columns)]
