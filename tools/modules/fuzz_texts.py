"""Texts for tools/fuzz: random words, random grammars, and the texts of rows and examples with random changes."""
import glob
import os

KINDS = ('original-noaction', 'original-useraction', 'original-genericparsetree', 'grmtools', 'eco', 'section')
NAMES = ('A', 'B', 'C', 'D', 'E', 'S', 'a', 'b', 'x', 'T', 'a.b', '_', 'Ab_1', 'Ab_2', 'expect', 'exptec', '~', '^')
TOKENS = ("'x'", '"y"', "'+'", "'a'", '"a"', "'''", '""x"', "'é'", '"日"', "'𝄞'", "'/*'", "'%%'", "'\r'", "'\x1b'", "'\x7f\u0085'", 'Ab_1', 'a', 'b', 'T', 'x',
          r"'\n'", r"'\'", r'"\x41"')
KEYWORDS = ('%token', '%start', '%left', '%right', '%nonassoc', '%epp', '%expect', '%expect-rr', '%expect-unused',
            '%avoid_insert', '%implicit_tokens', '%actiontype', '%parse-param', '%parse-generics', '%prec', '%empty', '%%',
            '%perc', '%prc', '%emtpy')
KIND_OF = {'%actiontype': 'original', '%implicit_tokens': 'eco'}
MARKS = ('%', ':', '::', ';', '|', '{', '}', '->', "'", '"', '\\', '/', '*', '//', '/*', '*/', ',', '(', ')', '[', ']', '!', '-')
BLANKS = (' ', ' ', ' ', '\n', '\t', '\r\n', '\r', '  ', '/* c */', '// c\n', '// c\r\n', '/*\n*/', '/*/*/', '// é\r', '', '')
CHARACTERS = ('é', 'ß', '日', '♠', '𝄞', '🂡', '\u0085', '\u00a0', '\u2028', '\u200e', '\u3000', '\0', '\x0b', '\x0c')
NUMBERS = ('0', '1', '42', '18446744073709551615', '18446744073709551616', '007')
SECTIONS = ('%grmtools', '%grmtools {', 'yacckind', 'YaccKind::', 'Original', '(NoAction)', '(YaccOriginalActionKind::UserAction)',
            'Grmtools', 'Eco', 'a: ', 'b, ', '!c', '"t"', '[x, 1]', '}', '"\\"')
ACTIONS = ('{}', '{ a }', '{ { } }', '{é}', "{ '}' }", '{ // \n }', '{ $2 + $lexer }', "{'\"' $1}", '{')
LONGEST = 1500


def seeds(root, read_rows):
    """The texts of the rows and of the examples, each with the type and kind of its row, without the large ones."""
    found = []
    for path in sorted(glob.glob(f'{root}/rows/data/vectors/*.rows')):
        if os.path.basename(path) not in ('large.rows', 'limits.rows'):
            found += [(row.type, row.kind, row.text().decode()) for row in read_rows(path) if row.type in ('row', 'section')]
    for path in sorted(glob.glob(f'{root}/examples/*.y')):
        with open(path, encoding='utf-8', newline='') as file:
            found.append(('row', KINDS[2], file.read()))
    return [it for it in found if len(it[2]) <= LONGEST]


class Texts:
    """Makes texts from random numbers."""

    def __init__(self, random, found):
        self.random, self.found, self.names = random, found, 'A'

    def make(self):
        """The type of a row, its kind, and its text. Some texts are for cfglint, with its arguments in place of the kind."""
        ty, kind, text = self.made()
        if ty == 'row' and self.random.random() < 0.25:
            formats = '--format=json ', '--format=github ', '--format=sarif ', ''
            levels = ('', '--warn=useless-symbol --warn=unusable-production ', '--warn unusable-rule --deny no-sentence ', '--warn all ')
            options = (f'--kind {kind} ', ''), formats, levels, ('', '', '--states ')
            return 'lint', ''.join(map(self.random.choice, options)) + '-', text
        return ty, kind, text

    def made(self):
        pick = self.random.random()
        if pick < 0.4:
            ty, kind, text = max(self.random.choices(self.found, k=2), key=lambda it: len(it[2]))
            if self.random.random() < 0.1:
                kind = self.random.choice(KINDS)
            return ty, kind, self.changed(text)
        if pick < 0.48:
            return 'row', self.random.choice(KINDS), self.words()
        if pick < 0.53:
            return 'section', KINDS[2], self.section()
        kind = self.random.choice(KINDS)
        if kind != 'section' and self.random.random() < 0.2:
            return 'generator', kind, self.grammar(kind)
        text = (self.section() if kind == 'section' else '') + self.grammar(kind)
        return 'row', kind, text if pick < 0.93 else self.changed(text)

    def some(self, most, of):
        return [of() for _ in range(self.random.randint(0, most))]

    def blank(self):
        return self.random.choice(BLANKS)

    def word(self):
        return self.random.choice(self.random.choice(
            (NAMES, TOKENS, KEYWORDS, KEYWORDS, MARKS, MARKS, BLANKS, CHARACTERS, NUMBERS, SECTIONS, ACTIONS)))

    def words(self):
        begin = self.random.choice(('', '%%', '%start A %% A:', '%grmtools{', '%token a %%', "%left 'x'"))
        return begin + ''.join(word + self.blank() for word in self.some(25, self.word))

    # ------------------------------------------------------------ changes

    def changed(self, text):
        for _ in range(self.random.choice((1, 1, 1, 2, 4))):
            text = self.random.choice((
                self.without, self.without, self.with_word, self.with_word, self.with_word, self.twice, self.swapped, self.cut,
                self.joined, self.line_ends, self.other_character))(text)
        return text[:4 * LONGEST]

    def offset(self, text):
        """An offset into the text, in characters, most often that of a blank or a mark."""
        marks = [at for at, character in enumerate(text) if not character.isalnum()]
        return self.random.choice(marks) if marks and self.random.random() < 0.7 else self.random.randint(0, len(text))

    def part(self, text, longest=None):
        first, second = sorted(self.offset(text) for _ in range(2))
        return first, second if longest is None else min(second, first + self.random.randint(1, longest))

    def without(self, text):
        first, second = self.part(text, 8)
        return text[:first] + text[second:]

    def with_word(self, text):
        at = self.offset(text)
        return text[:at] + self.blank() + self.word() + self.blank() + text[at:]

    def twice(self, text):
        first, second = self.part(text, 40)
        return text[:second] + text[first:]

    def swapped(self, text):
        (a, b), c = self.part(text, 20), self.offset(text)
        return text[:a] + text[b:c] + text[a:b] + text[max(b, c):] if c > b else text[:a] + text[b:]

    def cut(self, text):
        return text[:self.random.randint(0, len(text))]

    def joined(self, text):
        other = self.random.choice(self.found)[2]
        return text[:self.random.randint(0, len(text))] + other[self.random.randint(0, len(other)):]

    def line_ends(self, text):
        return text.replace('\n', self.random.choice(('\r\n', '\r', ' ', '\n\n')))

    def other_character(self, text):
        at = self.offset(text)
        return text[:at] + self.random.choice(CHARACTERS + MARKS + TOKENS) + text[at + 1:]

    # ------------------------------------------------------------ grammars and sections

    def name(self):
        return self.random.choice(self.names if self.random.random() < 0.95 else NAMES)

    def token(self):
        """A token. Some have the name of a rule."""
        if self.random.random() < 0.05:
            return self.random.choice(('%s', "'%s'")) % self.name()
        return self.random.choice(TOKENS)

    def declaration(self, kind):
        keywords = [it for it in KEYWORDS[:14] if KIND_OF.get(it, kind[:8]) == kind[:8]]
        keyword = self.random.choice(keywords)
        what = {
            '%start': self.name, '%expect': lambda: '3', '%expect-rr': lambda: '4',
            '%epp': lambda: self.token() + ' ' + self.random.choice(("'p'", '"q\\"r"', "''")),
            '%actiontype': lambda: 'Vec<u8>', '%parse-param': lambda: 'p: &T', '%parse-generics': lambda: "'a, T",
        }.get(keyword, lambda: ' '.join([self.token(), *self.some(3, self.token)]))
        return keyword + self.random.choice((' ',) * 9 + ('',)) + what() + self.random.choice(('\n', '\n', '\n', '\r\n', '\r', ' // c\n', '/*\n*/', ' '))

    def symbol(self):
        return self.name() if self.random.random() < 0.5 else self.token()

    def production(self):
        if self.random.random() < 0.1:
            return '%empty'
        tail = self.random.choice(('',) * 7 + (' %prec ' + self.token(), f' %prec {self.token()} %prec {self.token()}',
                                              ' ' + self.random.choice(ACTIONS[:6])))
        return ' '.join(self.some(3, self.symbol)) + tail

    def rule(self, kind, name):
        ty = ' -> ' + self.random.choice(('()', 'T::U', 'Vec<é> ')) if kind == 'grmtools' else ''
        productions = ' | '.join([self.production(), *self.some(2, self.production)])
        return name + ty + ':' + self.blank() + productions + ' ;' + self.blank()

    def grammar(self, kind):
        self.names = 'ABCDES'[:self.random.randint(1, 6)]
        head = ''.join(self.some(4, lambda: self.declaration(kind)))
        rules = ''.join(self.rule(kind, it) for it in self.names)
        return head + '%%' + self.blank() + rules + self.random.choice(('', '', '', '%%', '%% p é\n'))

    def setting(self, depth=0):
        pick = self.random.choice(('name', 'name', 'applied', 'number', 'string', 'array' if depth < 3 else 'name'))
        if pick == 'array':
            return '[' + self.random.choice((',', ' ', ', ')).join(self.some(3, lambda: self.setting(depth + 1))) + ']'
        if pick == 'number':
            return self.random.choice(NUMBERS)
        if pick == 'string':
            return self.random.choice(('"t"', '"é\\""', '""', '"a\\\\b"'))
        named = self.random.choice(('', '', 'n::', 'YaccKind :: ')) + self.random.choice(('x', 'Eco', 'Original', 'yacckind'))
        return named + ('(' + self.random.choice(('NoAction', 'a::b', 'UserAction')) + ')' if pick == 'applied' else '')

    def entry(self):
        key = self.random.choice(('a', 'b', 'c_d', 'A', 'yacckind', 'yacckind'))
        if key == 'yacckind' and self.random.random() < 0.8:
            return key + ': ' + self.random.choice((
                'Grmtools', 'Eco', 'YaccKind::Grmtools', 'Original(NoAction)',
                'YaccKind::Original(YaccOriginalActionKind::UserAction)', 'Original(GenericParseTree)', 'ECO'))
        return self.random.choice((key, '!' + key, key + ': ' + self.setting(), key + ':' + self.setting()))

    def section(self):
        entries = self.random.choice((',', ', ', ' ,\n')).join(self.some(4, self.entry))
        text = self.random.choice(('', ' ', '\n\u2028')) + '%grmtools' + self.random.choice(('', ' ', '\n')) + '{' + entries + \
            self.random.choice(('', ',', ' ')) + '}'
        return text if self.random.random() < 0.7 else self.changed(text)
