"""The output of the program `cfglint`, and its status: "The program cfglint"."""
import re

from . import as_annotation, as_json, as_sarif
from .bison_faults import NO_TOKEN, TEXTS, BisonFault, note_on
from .bison_tree import is_bison, read_bison
from .faults import Fault, HeaderFault
from .findings import findings_of
from .grammar import Grammar
from .hints import hint
from .near import nearest
from .rendered import note, placed, rendered, visible
from .section import named_kind, section
from .shown_states import states_text
from .validation import errors_of, every_fault
from .words import action_text

USAGE = 'usage: cfglint [OPTION..] [--] FILE..\n'
VERSION = 'cfglint 0.15.0\n'
HELP = '''cfglint reports errors in Yacc grammar files, and warnings about their grammars.

usage: cfglint [OPTION..] [--] FILE..

  --kind KIND        bison or yacc, the same: as Bison reads files; original-noaction, original-useraction,
                     original-genericparsetree, grmtools, eco; or section (the kind that the file's section names).
                     Without it the section names the kind; a file that names none is read as the default kind.
  --default-kind KIND
                     The default kind, any but section. Without it a file that names no kind is read as
                     original-noaction; if it then has errors, and something that only Bison's files have, such as %{
                     or %union, it is read as bison.
  --format FORMAT    text, the default; json: a line with a JSON object for each error and warning; github: a line
                     with a workflow command for each, which GitHub shows at its place; or sarif: a log in SARIF 2.1.0.
                     Only text has a summary.
  --columns UNIT     What a column of text counts from 1: bytes, characters, the default, or display: columns of a
                     terminal, of which wide characters take two, and tabs those up to the next multiple of 8.
  --color WHEN       Colours severities in text: always, never, or auto, the default: if standard output is a terminal,
                     and the variable NO_COLOR is unset or empty.
  --states           Writes the states of the parser after the findings, for reading a conflict by hand. Only text has
                     them.
  --allow FINDING    Findings of this kind aren't reported.
  --warn FINDING     Findings of this kind are warnings.
  --deny FINDING     Findings of this kind are errors.
  --deny-warnings    Warnings end with status 1 too.
  --quiet            Writes no summary.
  --stdin-name NAME  Standard input is reported under this name.
  -h, --help         Writes this.
  --version          Writes the version.
  --                 What follows are files.
  FILE               A path, or - for standard input, which can be given once.

FINDING is all, for each kind, or one of these. Without these options those that say so are errors or aren't reported,
and the others are warnings. If a finding is given to several of these options, the last one wins.

  unused-rule             a rule that can't be reached from the start rule
  unused-token            a token that can't be reached from it, and that no %prec names
  shadowed-rule           a rule that is never used, since its name is that of a token
  start-without-sentence  a start rule from which no sentence can be derived: an error
  no-sentence             another rule from which no sentence can be derived
  unusable-rule           a rule without a sentence since others have none: not reported
  unusable-production     a production with a rule that has no sentence: not reported
  useless-symbol          a rule or token that only unusable productions reach: not reported
  cyclic-rule             a rule that derives itself
  repeated-production     a production with the symbols of an earlier one of its rule
  unused-precedence       a precedence of a token that no production needs
  repeated-token          a token that a %token list has a second time
  overridden-precedence   a %prec that a later one of its production overrides
  glued-keyword           a name that directly follows a keyword, as in %tokens X
  needless-expect-unused  a symbol of an %expect-unused that is used
  escaped-token           a token whose name begins with a backslash: not reported
  implicit-empty          an empty production without %empty: not reported
  shift-reduce            a production that may be reduced where the next token may also be shifted
  reduce-reduce           a production that may be reduced where an earlier one may be too
  unmet-expect            an %expect or %expect-rr with another number of conflicts than there are: an error
  undefined-precedence    a production whose %prec names a token without a precedence
  missing-empty           an empty production without %empty, which others have
  swallowed-rule          a rule whose type goes on to the type of the next one
  unknown-key             a key of a section that nothing looks for
  unknown-reference       an action's $6 or @6 where fewer symbols come before it: an error
  unread-value            an action inside of a production that sets $$, which no later action reads
  misspelled-define       a %define whose variable or value is near to one that Bison knows
  repeated-alias          an alias of a %token list that a token has already
  stray-comma             a comma between words of a Bison file, where it is a blank

--kind=KIND is --kind KIND, and so on.

status: 0 without errors or denied warnings; 1 with either; 2 if the arguments are wrong, a file can't be read or
the output can't be written; 3 if there is no memory left
'''
OPTIONS = ('--kind', '--default-kind', '--format', '--columns', '--color', '--allow', '--warn', '--deny', '--deny-warnings',
           '--states', '--quiet', '--stdin-name', '--help', '--version')
KINDS = ('original-noaction', 'original-useraction', 'original-genericparsetree', 'grmtools', 'eco', 'bison', 'yacc',
         'section')
SAME = {'yacc': 'bison'}
FINDINGS = ('unused-rule', 'unused-token', 'shadowed-rule', 'start-without-sentence', 'no-sentence', 'unusable-rule',
            'unusable-production', 'useless-symbol', 'cyclic-rule', 'repeated-production', 'unused-precedence',
            'repeated-token', 'overridden-precedence', 'glued-keyword', 'needless-expect-unused', 'escaped-token', 'implicit-empty',
            'shift-reduce', 'reduce-reduce', 'unmet-expect', 'undefined-precedence', 'missing-empty', 'swallowed-rule', 'unknown-key',
            'unknown-reference', 'unread-value', 'misspelled-define', 'repeated-alias', 'stray-comma')
RULES = (*FINDINGS,
         'illegal-integer', 'illegal-name', 'illegal-string', 'incomplete-rule', 'incomplete-comment',
         'incomplete-action', 'missing-colon', 'missing-right-arrow', 'mismatched-brace', 'non-empty-production',
         'premature-end', 'production-not-terminated', 'programs-not-supported', 'unknown-declaration',
         'prec-without-token', 'duplicate-precedence', 'duplicate-avoid-insert', 'duplicate-implicit-tokens',
         'duplicate-expect', 'duplicate-expect-rr', 'duplicate-start', 'duplicate-actiontype', 'duplicate-epp',
         'reached-eol', 'invalid-string', 'no-start-rule', 'unknown-symbol', 'invalid-start-rule', 'unknown-rule',
         'unknown-token', 'no-precedence', 'unknown-epp', 'expected-input', 'invalid-yacc-kind', 'storage-too-small',
         'missing-section', 'section-illegal-name', 'section-expected-token', 'section-unexpected-token',
         'section-duplicate-entry', 'section-invalid-entry', 'section-conversion')
RULES = tuple(dict.fromkeys((*RULES, *(word for _, word in TEXTS.values()), 'unreadable-file', 'invalid-encoding')))
# Files of Bison have no %expect-unused: only tokens that no production needs are expected to be unused there. In other files a string in
# a %token list is a token, and a comma is no blank.
NOT_OF_BISON, OF_BISON = ('NeedlessExpectUnused',), ('RepeatedAlias', 'StrayComma')
ALLOWED = ('unusable-rule', 'unusable-production', 'useless-symbol', 'escaped-token', 'implicit-empty')
DENIED = ('start-without-sentence', 'unmet-expect', 'unknown-reference')
LEVELS = {'--allow': None, '--warn': 'warning', '--deny': 'error'}
VALIDATION = ('NoStartRule', 'InvalidStartRule', 'UnknownRuleRef', 'UnknownToken', 'NoPrecForToken', 'UnknownEPP')
WORDS = {'UnknownRuleRef': 'unknown-rule', 'NoPrecForToken': 'no-precedence', 'MissingGrmtoolsSection': 'missing-section',
         'ConversionError': 'section-conversion'}
UNKNOWN = ('InvalidStartRule', 'UnknownRuleRef', 'UnknownToken', 'UnknownEPP')
SUGGESTIONS = 20                                   # how many of the errors of a file are compared with its names
STILL_NO_TOKEN = '%left, %right and %nonassoc declare no token: declare it by %token too'
NO_PRECEDENCE = 'no %left, %right or %nonassoc names it'
WRITERS = {'json': as_json.line_of, 'github': as_annotation.line_of, 'sarif': as_sarif.line_of}
FORMATS = ('text', *WRITERS)
UNITS = ('bytes', 'characters', 'display')
COLOR_CHOICES = ('auto', 'always', 'never')
COLORS = {'error': 31, 'warning': 35}                # as ANSI's escape sequences number them
GREATEST = 4294967295
NO_MEMORY = object()                               # in place of the bytes of a file


class Unreadable:
    """In place of the bytes of a file that can't be read: why, if the system says so."""

    def __init__(self, error=None):
        reasons = {FileNotFoundError: ': it is not there', IsADirectoryError: ': it is a directory',
                   PermissionError: ': permission denied'}
        self.says = 'Unreadable file' + reasons.get(type(error), '')


class Wrong(Exception):
    """Wrong arguments: the line that says what is wrong."""


class Options:
    def __init__(self):
        self.kind, self.default_kind = None, None
        self.denies, self.is_quiet, self.stdin_name, self.files = False, False, '-', []
        self.levels = dict.fromkeys(FINDINGS, 'warning') | dict.fromkeys(ALLOWED) | dict.fromkeys(DENIED, 'error')
        self.format, self.columns, self.colors, self.shows_states = 'text', 'characters', False, False

    def set(self, option, value):
        if option == '--stdin-name':
            self.stdin_name = value
        elif option == '--kind':
            self.kind = kind_named(value, 'kind', KINDS)
        elif option == '--default-kind':
            self.default_kind = kind_named(value, 'default kind', KINDS[:-1])
        elif option == '--format':
            self.format = named(value, 'format', FORMATS)
        elif option == '--columns':
            self.columns = named(value, 'unit', UNITS)
        elif option == '--color':
            choice = named(value, 'color choice', COLOR_CHOICES)
            self.colors = choice == 'always' or choice == 'auto' and self.colors
        else:
            word = named(value, 'finding', (*FINDINGS, 'all'))
            self.levels.update(dict.fromkeys(FINDINGS if word == 'all' else [word], LEVELS[option]))


def named(value, what, values):
    if value not in values:
        raise unknown(what, value, value, values)
    return value


def kind_named(value, what, kinds):
    """The word of the kind that a value names."""
    return SAME.get(value, named(value, what, kinds))


def unknown(what, word, name, names):
    """That a word names nothing, with the nearest of the names, or else with all."""
    return Wrong("unknown %s '%s': %s" % (what, visible(word), nearest(name, names) or 'the %ss are %s' % (what, ', '.join(names))))


def options_of(arguments):
    """The options and files of the command line, or the text that it asks for."""
    options, left = Options(), list(arguments)
    while left:
        argument = left.pop(0)
        option, equals, value = argument.partition('=')
        if argument in ('-h', '--help'):
            return HELP
        if argument == '--version':
            return VERSION
        if argument == '--':
            options.files, left = options.files + left, []
        elif argument == '--deny-warnings':
            options.denies = True
        elif argument == '--states':
            options.shows_states = True
        elif argument == '--quiet':
            options.is_quiet = True
        elif option in ('--kind', '--default-kind', '--format', '--columns', '--color', *LEVELS, '--stdin-name'):
            if not equals and not left:
                raise Wrong("option '%s' needs a value" % option)
            options.set(option, value if equals else left.pop(0))
        elif argument.startswith('-') and argument != '-':
            raise unknown('option', argument, option, OPTIONS)
        else:
            options.files.append(argument)
    if not options.files:
        raise Wrong('no file is given')
    if options.files.count('-') > 1:
        raise Wrong('standard input is given twice')
    return options


class Tally:
    """What was printed: the lines on texts, the lines on files without one, and the counts of the summary."""

    def __init__(self):
        self.lines, self.faults, self.texts, self.kinds, self.errors, self.warnings = '', '', 0, [], 0, 0

    def add_text(self, options, name, t, is_printed):
        self.texts += 1
        word, refused = read_kind(options.kind, options.default_kind, t)
        if word is None:
            return self.add_errors(options, name, t, refused, None)
        if options.kind in (None, 'section'):
            self.kinds.append(word)
        tree, errors = read_as(word, t)
        if errors:
            return self.add_errors(options, name, t, errors, tree)
        grammar = Grammar(tree)
        if not grammar.fits(GREATEST):
            return self.add_errors(options, name, t, [Fault('StorageTooSmall', (0, 0))], tree)
        for finding in findings_of(t, tree, grammar, is_printed):
            if finding.kind not in (NOT_OF_BISON if word == 'bison' else OF_BISON):
                self.add_finding(options, name, t, finding)
        if options.shows_states and options.format == 'text':
            self.add_lines(states_text(tree))

    def add_errors(self, options, name, t, errors, tree):
        for index, error in enumerate(shown_errors(t, errors, tree)):
            self.add_error(options, name, t, error, words_on(t, error, tree, index < SUGGESTIONS))

    def add_error(self, options, name, t, error, words):
        self.errors += 1
        if options.format in WRITERS:
            self.add_written(options, name, t, 'error', error_word(error), error.display(), error.spans, words)
        else:
            message = ': '.join(['error', error.display(), *([] if words is None else [words])])
            self.add_message(options, name, t, '%s [%s]' % (message, error_word(error)), error)
            self.add_note(options, name, t, words, error.spans[-1 if error.kind == 'IncompleteRule' else 0][0])

    def add_unread(self, options, name, before, word, says):
        """Adds a file whose reading stopped after this text."""
        self.faults += '%s:%d:%d: error: %s [%s]\n' % (visible(name), *placed(before, len(before), options.columns), says, word)
        if options.format in WRITERS:
            self.add_written(options, name, before, 'error', word, says, [(len(before), len(before))])

    def add_finding(self, options, name, t, finding):
        word = re.sub('(?<=.)[A-Z]', lambda capital: '-' + capital.group(), finding.kind).lower()
        level = None if is_allowed(t, word, finding.spans[0][0]) else options.levels[word]
        self.errors += level == 'error'
        self.warnings += level == 'warning'
        if level and options.format in WRITERS:
            self.add_written(options, name, t, level, word, finding.text, finding.spans, finding.note)
        elif level:
            self.add_message(options, name, t, '%s: %s [%s]' % (level, finding.text, word), finding)
            self.add_note(options, name, t, finding.note, finding.spans[0][0])

    def add_message(self, options, name, t, message, of):
        """Adds a message, which begins with its severity, at the spans of an error or a finding."""
        first, *others = rendered(name, t, message, of.spans, of.spans_kind(), options.columns)
        self.add_lines([coloured(first, message) if options.colors else first, *others])

    def add_note(self, options, name, t, words, offset):
        self.add_lines([] if words is None else [note(name, t, words, offset, options.columns)])

    def add_written(self, options, *parts):
        """Adds a line that programs read."""
        self.add_lines([WRITERS[options.format](*parts)])

    def output(self, options):
        """All that is written."""
        if options.format == 'sarif':
            return as_sarif.log(VERSION.split()[1], RULES, self.lines.split('\n')[:-1])
        return self.lines + ('' if options.is_quiet or options.format in WRITERS else self.summary())

    def add_lines(self, lines):
        self.lines += ''.join(line + '\n' for line in lines)

    def summary(self):
        counts = [(word, self.kinds.count(word)) for word in KINDS if word not in SAME]
        kinds = ', '.join('%s read as %s' % (counted(n, 'file'), word) for word, n in counts if n)
        return '%s: %s, %s%s\n' % (counted(self.texts, 'file'), counted(self.errors, 'error'),
                                   counted(self.warnings, 'warning'), kinds and '; ' + kinds)

    def status(self, denies):
        if self.faults:
            return 2
        return 1 if self.errors or denies and self.warnings else 0


def coloured(line, message):
    """The line of a message, which ends with it, with its severity in bold and in its colour."""
    place, severity = line[:-len(visible(message))], message.partition(':')[0]
    return '%s\x1b[1;%dm%s:\x1b[0m%s' % (place, COLORS[severity], severity, line[len(place) + len(severity) + 1:])


def is_allowed(t, word, offset):
    """Whether a comment in the line or in the line before allows findings of this word there."""
    number = t.count(b'\n', 0, offset)
    lines = t.split(b'\n')[max(number - 1, 0):number + 1]
    return any(line.partition(b'cfglint-allow ')[2].startswith(word.encode()) for line in lines)


def error_word(error):
    """The word of an error's kind: mostly the name of the kind, with dashes."""
    if isinstance(error, BisonFault):
        return error.word()
    if error.kind in WORDS:
        return WORDS[error.kind]
    name = re.sub('^(Duplicate.*)Declaration$', r'\1', error.kind)
    return 'section-' * isinstance(error, HeaderFault) + re.sub('(?<=[a-z])(?=[A-Z])', '-', name).lower()


def open_rule(t, tree):
    """The spans of the names of the rule that the end of a text cuts: of one, or of none if it isn't known which."""
    if not tree.rules:
        return []
    *_, rule = tree.rules.values()
    if not rule.productions:
        return [rule.span]
    number, white = rule.productions[-1], re.compile(rb'[ \t\r\n]*')
    production = tree.productions[number]
    end = white.match(t, production.span[1]).end()
    if production.action and t.startswith(b'{', end):
        end = white.match(t, action_text(t, end)[2]).end()
    return [rule.span] if number + 1 == len(tree.productions) and t.startswith(b'|', end) else []


def shown_errors(t, errors, tree):
    """The errors of a text that are printed: unless one stopped the reading, each fault of its tree. One that the end cuts a rule has
    the name of that rule too."""
    if any(isinstance(error, BisonFault) for error in errors):
        return errors
    shown = [Fault(error.kind, error.span, None, open_rule(t, tree)) if error.kind == 'IncompleteRule' else error
             for error in errors if error.kind not in VALIDATION]
    if any(map(stops_reading, errors)):
        return shown
    shown += [fault for fault in every_fault(tree) if fault.kind != 'NoPrecForToken']
    lacking = [p for p in tree.productions if p.precedence is not None and p.precedence not in tree.precedences]
    return shown + [Fault('NoPrecForToken', p.span, p.precedence) for p in lacking]


def words_on(t, error, tree, looks_up):
    """The note on an error, or None."""
    if isinstance(error, BisonFault):
        return note_on(t, error, [*tree.rules, *tree.tokens] if looks_up else [])
    return hint(t, error) or suggestion(error, tree, looks_up)


def suggestion(error, tree, looks_up):
    """The note on an error with an unknown name, or None. The nearest name is looked up for the first errors alone."""
    if error.kind == 'NoPrecForToken':
        near = looks_up and nearest(error.name, tree.precedences)
        return NO_PRECEDENCE + (': ' + near if near else '')
    if error.kind == 'UnknownRuleRef' and looks_up and error.name in tree.precedences:
        return STILL_NO_TOKEN
    near = nearest(error.name, [*tree.rules, *tree.tokens]) if looks_up and error.kind in UNKNOWN else None
    return NO_TOKEN if near is None and error.kind == 'UnknownRuleRef' else near


def stops_reading(error):
    repeats = error.kind.startswith('Duplicate') and not isinstance(error, HeaderFault)
    return not repeats and error.kind not in VALIDATION and error.kind != 'StorageTooSmall'


def read_kind(option, default, t):
    """The word of the kind as which the text is read, or None with the errors that are then printed."""
    if option not in (None, 'section'):
        return option, []
    values, errors, _ = section(t, False)
    if option is None and not errors and 'yacckind' not in values:
        return default or ('bison' if is_bison(t) else 'original-noaction'), []
    kind, errors = named_kind(t)
    return kind and kind.replace('(', '-').rstrip(')').lower(), errors


def read_as(word, t):
    """The tree and the errors of a text that is read as the kind of this word."""
    return read_bison(t) if word == 'bison' else errors_of(word.partition('-')[0].capitalize(), t)


def counted(n, word):
    return '%d %s%s' % (n, word, '' if n == 1 else 's')


def result(arguments, fetch, is_printed):
    """The output, the errors and the status of a run, or None if memory runs out. `fetch` returns the bytes of a file, an Unreadable
    or NO_MEMORY."""
    try:
        options = options_of(arguments)
    except Wrong as wrong:
        return '', 'cfglint: %s\n%s' % (wrong, USAGE), 2
    if not isinstance(options, Options):
        return options, '', 0
    tally = Tally()
    for file in options.files:
        t, name = fetch(file), options.stdin_name if file == '-' else file
        if t is NO_MEMORY:
            return None
        if isinstance(t, Unreadable):
            tally.add_unread(options, name, b'', 'unreadable-file', t.says)
        elif valid_length(t) < len(t):
            before = t[:valid_length(t)]
            tally.add_unread(options, name, before, 'invalid-encoding', 'Not UTF-8: found the byte 0x%02X' % t[len(before)])
        else:
            tally.add_text(options, name, t, is_printed)
    return tally.output(options), tally.faults, tally.status(options.denies)


def valid_length(t):
    """How many bytes come before the first that is in no character of UTF-8."""
    try:
        return len(t.decode('utf-8').encode('utf-8'))
    except UnicodeDecodeError as error:
        return error.start


def ending(arguments, fetch, room, why, is_printed):
    """How a run ends if its output has room for so many bytes: what is written to it, the errors, and the status. `why` is the reason
    why it then accepts no more, if one is printed, or None if nobody reads it any more."""
    found = result(arguments, fetch, is_printed)
    if found is None:
        return '', 'cfglint: out of memory\n', 3
    output, errors, status = found
    if len(output.encode('utf-8')) > room and why is not None:
        return output, errors + 'cfglint: cannot write%s\n' % why, 2
    return output, errors, status
