"""Errors, as "Printed texts" has them, and their positions: "Lines and columns"."""


class Fault(Exception):
    """An error: its kind, the name in it or None, its span, and the spans of repeats."""

    def __init__(self, kind, span, name=None, repeats=()):
        Exception.__init__(self, kind)
        self.kind, self.span, self.name = kind, span, name
        self.spans = [span, *repeats]

    def display(self):                             # "Printed texts"
        return {
            'IllegalInteger': 'Illegal integer',
            'IllegalName': 'Illegal name',
            'IllegalString': 'Illegal string',
            'IncompleteRule': 'Incomplete rule',
            'IncompleteComment': 'Incomplete comment',
            'IncompleteAction': 'Incomplete action',
            'MissingColon': "Missing ':'",
            'MissingRightArrow': "Missing '->'",
            'NonEmptyProduction': '%empty used in non-empty production',
            'PrematureEnd': 'File ends prematurely',
            'ProductionNotTerminated': 'Production not terminated correctly',
            'UnknownDeclaration': 'Unknown declaration',
            'DuplicatePrecedence': 'Token has multiple precedences specified',
            'DuplicateAvoidInsertDeclaration': 'Duplicated %avoid_insert declaration',
            'DuplicateImplicitTokensDeclaration': 'Duplicated %implicit_tokens declaration',
            'DuplicateExpectDeclaration': 'Duplicated %expect declaration',
            'DuplicateExpectRRDeclaration': 'Duplicate %expect-rr declaration',
            'DuplicateStartDeclaration': 'Duplicated %start declaration',
            'DuplicateActiontypeDeclaration': 'Duplicate %actiontype declaration',
            'DuplicateEPP': 'Duplicate %epp declaration for this token',
            'ReachedEOL': 'Reached end of line without finding expected content',
            'InvalidString': 'Invalid string',
            'NoStartRule': 'No start rule specified',
            'UnknownSymbol': 'Unknown symbol, expected a rule or token',
            'InvalidStartRule': "Start rule '%s' does not appear in grammar" % self.name,
            'UnknownRuleRef': "Unknown reference to rule '%s'" % self.name,
            'UnknownToken': "Unknown token '%s'" % self.name,
            'NoPrecForToken': "Token '%s' used in %%prec has no precedence attached" % self.name,
            'UnknownEPP': "Token '%s' in %%epp declaration is not referenced in the grammar" % self.name,
            'StorageTooSmall': 'Index type too small for this grammar',
        }[self.kind]

    def spans_kind(self):
        return 'DuplicationError' if self.kind.startswith('Duplicate') else 'Error'


class HeaderFault(Fault):
    """An error in a section: its kind, its spans, and the characters and texts in its kind."""

    def __init__(self, kind, spans, holds=()):
        Fault.__init__(self, kind, spans[0], None, spans[1:])
        self.holds = holds

    def text(self):
        return {
            'MissingGrmtoolsSection': 'Missing %%grmtools section',
            'IllegalName': 'Illegal name',
            'ExpectedToken': "Expected token: '%s'",
            'UnexpectedToken': "Unxpected token: '%s', %s ",
            'DuplicateEntry': 'Duplicate Entry',
            'InvalidEntry': "Invalid entry: '%s'",
        }[self.kind] % self.holds

    def display(self):
        return "Error in '%grmtools' " + self.text()


def at(kind, p):
    return Fault(kind, (p, p))


def position(t, p):
    """The line and the column of an offset."""
    before = t[:p]
    line = before.count(b'\n') + 1
    begin = before.rfind(b'\n') + 1
    column = len(t[begin:p].decode('utf-8')) + 1
    if t[p:p + 1] == b'\n' and p > begin and t[p - 1] == 0x0D:
        column -= 1
    return line, column
