"""What is printed of runs of cfglint. by_rules/lint.py has the output of cfglint, by_rules/findings.py its findings.

The rules leave open which of several shortest cycles of a rule is printed. That is taken from the program's output if it is one of them.
"""
import json
import math
import os
import re
import sys

from . import texts as rows
from ..lint import NO_MEMORY, USAGE, Unreadable, ending

LATIN = b'A\xff'
# how outputs end in a row `rooms`, and the reason that is printed if the output does; none is if nobody reads it any more
ENDS = {'fails': None, 'is interrupted': '', 'takes none': ''}
# the same for the words of rows
WHY = {'full': '', 'interrupts': '', 'no-space': ': no space is left', 'over-quota': ': no space is left',
       'too-large': ': the file would get too large'}
STEPS = (1, 4, 18446744073709551615)


def printed_cycles(written):
    """The texts that the program printed for cyclic rules."""
    objects = [json.loads(line) for line in re.findall(r'^    \|(\{"(?:file|level)":.*\}),?$', written, re.MULTILINE)]
    texts = {found['text'] for found in objects if found.get('kind') == 'cyclic-rule'}
    texts |= {found['message']['text'] for found in objects if found.get('ruleId') == 'cyclic-rule'}
    texts |= {text.replace('%25', '%') for text in re.findall(r',title=cyclic-rule::(.*)$', written, re.MULTILINE)}
    return texts | set(re.findall(r"\d: (?:error|warning): (Rule '.*' derives itself: .*) \[cyclic-rule\]", written))


class Run:
    """The run of the program that a row requests: its arguments, its files, and the room of its outputs. An output that takes no bytes for
    the moment, as the row may ask for by `blocks`, is waited for, and changes nothing."""

    def __init__(self, row, printed):
        self.row, self.printed = row, printed
        self.requests = {}
        for keyword, rest in row.requests:
            self.requests.setdefault(keyword, ' '.join(rest))
        self.rooms = {rest[0]: int(rest[1]) for keyword, rest in row.requests if keyword == 'room'}
        self.why = next((WHY[keyword] for keyword, rest in row.requests if keyword in WHY and rest[0] == 'out'), None)
        self.arguments = self.requests.get('words', '')
        self.by_default = ['--color=always'] if 'terminal' in self.requests and not self.requests.get('no-color') else []
        self.opened, self.readers = '', 0

    def input(self, text):
        """The contents of a file: this text, unless the row says what to read instead."""
        fault = PermissionError() if self.row.type == 'lint-program' else None
        return {'unreadable': Unreadable(fault), 'memory': NO_MEMORY, 'latin': LATIN}.get(self.requests.get('input'), text)

    def ending(self, room, why):
        """The texts that the program writes to both outputs, and its status."""
        if '\ufffd' in self.arguments:
            return '', 'cfglint: an argument is not UTF-8\n' + USAGE, 2
        fetch = self.fetch_file if self.row.type == 'lint-program' else self.fetch_next()
        return ending(self.by_default + self.arguments.split(), fetch, room, why, lambda text: text in self.printed)

    def fetch_next(self):
        """The text of the row, then its names, whichever files are read; after them no file can be read."""
        files = [self.input(self.row.text())]
        files += [rows.unmark(self.requests['names']).replace('#', '0').encode('utf-8')] if 'names' in self.requests else []
        return lambda name: files.pop(0) if files else Unreadable()

    def fetch_file(self, name):
        """Standard input, or a file of the folder of data."""
        if name == '-':
            self.readers += 1
            return self.input(self.row.text())
        self.opened += ' ' + name
        try:
            with open(os.path.join(self.row.directory, name), 'rb') as f:
                return f.read()
        except OSError as error:
            return Unreadable(error)

    def taken_lines(self, name, written):
        """The part of a text for which an output has room, and the number of its faults where the row prints it."""
        whole = written.encode('utf-8')
        taken = whole[:self.rooms.get({'output': 'out', 'errors': 'err'}[name], len(whole))]
        faults = '' if self.row.type == 'lint-program' else ', %d faults' % (taken != whole)
        return ['%s of %d bytes%s' % (name, len(taken), faults)] + [
            '    |' + rows.mark(line) for line in taken.decode('utf-8').split('\n')]

    def room_lines(self, whole):
        """How the program ends with outputs of each room up to the size of the whole text."""
        size = len(whole.encode('utf-8'))
        is_output = self.requests['rooms'] == 'out'
        statuses = {end: ['%d:%d' % (room, self.ending(room if is_output else math.inf, why)[2]) for room in range(size + 1)]
                    for end, why in ENDS.items()}
        return ['    at most %d bytes at a time, and %s at the end: %s' % (step, end, ' '.join(statuses[end]))
                for step in STEPS for end in ENDS]

    def lines(self):
        output, errors, status = self.ending(self.rooms.get('out', math.inf), self.why)
        lines = ['cfglint ' + self.arguments, 'status %d' % status]
        lines += self.taken_lines('output', output) + self.taken_lines('errors', errors)
        if self.row.type == 'lint-program':
            return lines + ['files:' + self.opened, 'standard input: %d times' % self.readers]
        if 'rooms' in self.requests:
            lines += self.room_lines(output if self.requests['rooms'] == 'out' else errors)
        return lines


def printed(paths):
    """What is printed of the rows in these files, row by row."""
    cycles = printed_cycles(sys.stdin.read())
    for path in paths:
        for row in rows.read_rows(path):
            lines = Run(row, cycles).lines()
            if row.show == 'digest':
                lines = rows.digest_lines(row, lines)
            head = ['== ' + row.name] + ['   ' + note for note in row.notes]
            yield '\n'.join(head + lines) + '\n\n'
