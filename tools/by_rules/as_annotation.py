"""Errors and findings as annotations of GitHub: "Annotations of GitHub"."""
from .as_json import numbers

ESCAPES = {'%': '%25', '\r': '%0D', '\n': '%0A'}


def escaped(text, more=()):
    return ''.join((ESCAPES | dict(more)).get(c, c) for c in text)


def of_property(text):
    return escaped(text, {':': '%3A', ',': '%2C'})


def placed(t, offset, names):
    """The properties with the line and the column of an offset, if it has any."""
    line, column = numbers(t, offset)
    return [] if line is None else ['%s=%d' % (names[0], line), '%s=%d' % (names[1], column)]


def line_of(name, t, severity, kind, text, spans, words=None):
    """The line of an error or a finding in a text of this name: a workflow command."""
    properties = ['file=' + of_property(name)]
    for start, end in spans[:1]:
        properties += placed(t, start, ('line', 'col')) + placed(t, end, ('endLine', 'endColumn'))
    said = text if words is None else '%s: %s' % (text, words)
    return '::%s %s::%s' % (severity, ','.join([*properties, 'title=' + of_property(kind)]), escaped(said))
