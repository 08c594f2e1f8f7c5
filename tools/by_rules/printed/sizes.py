"""The digests of the rows of values/sizes.rows and runs/sizes.rows in rows/data.

The results of each row are made here from docs/BEHAVIOUR.md and docs/ROWS.md, by repeating lines as the text of the row does.
"""


def digest_of(name, text):
    digest = 0xcbf29ce484222325
    for byte in text.encode('utf-8'):
        digest = (digest ^ byte) * 0x100000001b3 & 0xffffffffffffffff
    return ('== %s\n    %d lines of %d bytes, digest %016x\n' % (name, text.count('\n'), len(text.encode('utf-8')), digest))


def pictured(text):
    return ''.join('    |%s\n' % line for line in text.split('\n'))


# ---------------------------------------------------------------- values: lines and columns

def of_lines():
    """Lines of two letters, each with an empty line after it: their columns repeat every four bytes."""
    count = 4000
    out = 'text of %d bytes\n%s' % (4 * count, pictured('ab\n\n' * count))
    for byte in range(4 * count):
        line, start = (2 * (byte // 4) + 1, byte - byte % 4) if byte % 4 < 3 else (2 * (byte // 4) + 2, byte)
        out += '    %d: line %d from %d, at %d:%d\n' % (byte, line, start, line, byte - start + 1)
    end, last = 4 * count, 2 * count + 1
    out += '    %d: line %d from %d, at %d:1\n' % (end, last, end, last)
    out += '    %d: no line from nowhere, no column\n' % (end + 1)
    out += '    lines of (0,%d): (0,%d)\nfed in 3 ways\n' % (end, end)
    return out + 'of its lines, joined: %d: line %d from %d, past it: no line from nowhere\n' % (end, last, end)


def of_one_line():
    """One line of three-byte characters: every third byte has a column."""
    count = 2000
    out = 'text of %d bytes\n%s' % (3 * count, pictured('日' * count))
    for byte in range(3 * count + 1):
        column = ', at 1:%d' % (byte // 3 + 1) if byte % 3 == 0 else ', no column'
        out += '    %d: line 1 from 0%s\n' % (byte, column)
    out += '    %d: no line from nowhere, no column\nfed in 2 ways\n' % (3 * count + 1)
    return out + 'of its lines, joined: %d: line 1 from 0, past it: no line from nowhere\n' % (3 * count)


# ---------------------------------------------------------------- values: the marked map

def map_lines(watched, listed):
    """The watched keys, each with its value and marks, and the lists: keys, entries, unused and missing keys."""
    lists = tuple(''.join(' ' + it for it in each) for each in listed)
    shown = ' '.join('[%s]' % it for it in watched)
    return '        %s\n        keys%s; entries%s; unused%s; missing%s\n' % ((shown,) + lists)


def of_numbers():
    """4,000 numbers have themselves as values and are required, and the first 2,000 are used; then each has the value 7."""
    numbers = range(4000)
    marks = lambda n: ' used required, mark 3' if n < 2000 else ' required, mark 2'
    state = lambda value: map_lines(
        ['%d %d%s' % (n, value(n), marks(n)) for n in (0, 1999, 2000, 3999)],
        ([str(n) for n in numbers], ['%d %d' % (n, value(n)) for n in numbers], [str(n) for n in numbers[2000:]], []))
    out = 'None\n' * 4000 + '()\n' * 4000 + '()\n' * 2000 + 'vacant, lends 7\n' * 4000
    return out + '    default Theirs: ()\n' + state(lambda n: n) + '    merge : ()\n' + state(lambda n: 7)


def of_texts():
    """4,000 texts are required, with Theirs; 2,000 of them have the value 1, and then each has 2. The last one is used."""
    names = sorted('k%d' % n for n in range(4000))
    marks = lambda name: ' used required' if name == 'k3999' else ' required'
    mark = lambda name: ', mark %d' % (263 if name == 'k3999' else 262)

    def state(values):
        watched = ['"%s" %s%s%s' % (name, values.get(name, '-'), marks(name), mark(name) if name in values else '')
                   for name in ('k0', 'k1999', 'k2000', 'k3999')]
        present = [name for name in names if name in values]
        quoted = lambda listed: ['"%s"' % name for name in listed]
        return map_lines(watched, (quoted(present), ['"%s" %d' % (name, values[name]) for name in present],
                                   quoted(name for name in present if name != 'k3999'),
                                   quoted(name for name in names if name not in values)))

    out = '()\n' * 4000 + 'vacant, ()\n' * 4000 + 'vacant, mark 262\n' * 2000 + 'None\n' * 4000
    out += '    mark_used k3999: ()\n' + state({'k%d' % n: 1 for n in range(2000)})
    return out + '    equal to the other: false\n    merge : ()\n' + state({name: 2 for name in names})


def of_marks():
    """4,000 numbers with only a behaviour, Ours; in the other map each is required and has the value 5, which is taken."""
    numbers = [str(n) for n in range(4000)]
    out = '()\n' * 4000 + 'vacant, ()\n' * 4000 + 'vacant, mark 2\n' * 4000 + '    merge : ()\n'
    return out + map_lines(['%s 5 required, mark 518' % n for n in ('0', '3999')],
                           (numbers, [n + ' 5' for n in numbers], numbers, []))


# ---------------------------------------------------------------- values: spans, bits, errors

def of_span():
    return '    (3,5) has 2 bytes, as a place Span(Span { start: 3, end: 5 }); true false true\n'


def of_bits():
    count = 100000
    shown = lambda bits: '    %d bits %s\n' % (count, bits)
    off, last = '0' * count, '0' * (count - 1) + '1'
    out = shown(off) + '    set(99999, 1): true\n' + shown(last)
    out += '    get(99999): Some(true)\n    get(100000): None\n'
    out += '    or(0..): false, equal: false\n' + shown(last)
    return out + '    or(1..): true, equal: true\n' + shown('1' * count)


def of_names():
    name = 'µ' * 50000
    reference = "Unknown reference to rule '%s'" % name
    start = "Start rule '%s' does not appear in grammar" % name
    return '    UnknownRuleRef("%s") (1,2) (2,2) Error: %s\n' % (name, reference) + \
        '    InvalidStartRule("%s") (0,100000) (100000,100000) Error: %s\n' % (name, start)


# ---------------------------------------------------------------- runs

def run(arguments, status, output, errors=''):
    return 'cfgtool %s\nstatus %d\noutput of %d bytes, 0 faults\n%serrors of %d bytes, 0 faults\n%s' % (
        arguments, status, len(output), pictured(output), len(errors), pictured(errors))


def program(arguments, status, output, errors=''):
    written = run(arguments, status, output, errors).replace(' bytes, 0 faults\n', ' bytes\n')
    return written + 'files:\nstandard input: 1 times\n'


def of_productions():
    out = '0 R: "k"\n1 R:\n'
    for rule in range(9999):
        out += '%d R%d: "k%d" "R"\n%d R%d:\n' % (2 * rule + 2, rule, rule, 2 * rule + 3, rule)
    return run('original-noaction grammar -', 0, out + '20000 ^: "R"\n')


def of_firsts():
    out = '^: "k0"\nR: "k0"\n' + ''.join('R%d: "k%d"\n' % (rule, rule + 1) for rule in range(1998))
    return run('original-useraction firsts -', 0, out + 'R1998: "k"\n')


def of_doubled_costs():
    """X0 costs 1, and each rule after it twice as much as the one before: X16 costs more than the limit."""
    out = '^: min too large max unbounded\nA: min too large max unbounded\n'
    for rule in range(16):
        out += 'X%d: min %d max %d\n- %s\n' % (rule, 2 ** rule, 2 ** rule, ' '.join(['"x"'] * 2 ** rule))
    return run('original-genericparsetree sentences -', 0, out + 'X16: min too large max too large\n')


def of_standard_input():
    out = '0 S:\n'
    for rule in range(17500):
        out += '%d R%d: "a" "b"\n%d R%d:\n' % (2 * rule + 1, rule, 2 * rule + 2, rule)
    return program('original-genericparsetree grammar -', 0, out + '35001 ^: "S"\n')


def printed():
    """The digests, row by row."""
    yield digest_of('sized-lines-8000', of_lines())
    yield digest_of('sized-line-of-6000', of_one_line())
    yield digest_of('sized-numbers-4000', of_numbers())
    yield digest_of('sized-texts-4000', of_texts())
    yield digest_of('sized-marks-4000', of_marks())
    yield digest_of('sized-place', of_span())
    yield digest_of('sized-bits-100000', of_bits())
    yield digest_of('sized-names', of_names())
    arguments = 'original-genericparsetree grammar -'
    yield digest_of('sized-grammar-20000', of_productions())
    yield digest_of('sized-firsts-2000', of_firsts())
    yield digest_of('sized-error-behind-20000-lines', run(arguments, 1, "20001:7: Unknown reference to rule 'B'\n"))
    yield digest_of('sized-name-in-an-error', run(arguments, 1, "1:7: Unknown reference to rule '%s'\n" % ('n' * 100000)))
    yield digest_of('sized-costs-that-double', of_doubled_costs())
    yield digest_of('sized-standard-input', of_standard_input())
    yield digest_of('sized-standard-input-that-fails', program(arguments, 2, '', 'cfgtool: cannot read -\n'))
