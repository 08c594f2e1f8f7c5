"""Errors and findings as a log of SARIF 2.1.0: "SARIF"."""
import json
import string

from .as_json import numbers

KEPT = (string.ascii_letters + string.digits + '-./_~').encode('ascii')
SCHEMA = 'https://json.schemastore.org/sarif-2.1.0.json'


def compact(value):
    return json.dumps(value, ensure_ascii=False, separators=(',', ':'), sort_keys=True)


def uri(name):
    return ''.join(chr(byte) if byte in KEPT else '%%%02X' % byte for byte in name.encode('utf-8'))


def location(name, t, *span):
    """A place in a file: the region of a span whose two ends have a line and a column, or else the file as a whole."""
    ends = [numbers(t, offset) for offset in span]
    place = {'artifactLocation': {'uri': uri(name)}}
    if ends and (None, None) not in ends:
        (line, column), (end_line, end_column) = ends
        place['region'] = {'startLine': line, 'startColumn': column, 'endLine': end_line, 'endColumn': end_column}
    return {'physicalLocation': place}


def line_of(name, t, severity, kind, text, spans, words=None):
    """An error or a finding in a text of this name, on a line."""
    return compact({
        'level': severity, 'ruleId': kind, 'message': {'text': text if words is None else '%s: %s' % (text, words)},
        'locations': [location(name, t, *(spans[0] if spans else ()))],
        'relatedLocations': [location(name, t, *span) for span in spans[1:]]})


def log(version, rules, lines):
    """The log of these lines, by a program of this version with rules of these names."""
    return '{"version":"2.1.0","$schema":"%s",\n"runs":[{"tool":{"driver":{"name":"cfglint","version":"%s","rules":[\n%s\n%s%s\n]}]}\n' % (
        SCHEMA, version, ',\n'.join('{"id":"%s"}' % rule for rule in rules), ']}},"columnKind":"unicodeCodePoints","results":[',
        ','.join('\n' + line for line in lines))
