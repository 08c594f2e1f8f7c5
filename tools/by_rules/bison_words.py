"""The words of a Yacc or Bison file, as Bison 3.8 reads them. Offsets are those of bytes.

A fault in a word doesn't end the reading: the fault is listed, and either the word counts all the same (a literal with
a wrong escape), or a word `fault` comes in its place, which is expected nowhere.
"""
from .bison_faults import BisonFault
from .words import WHITE_SPACE

BLANKS = b' \t\v\f\r\n,'
LETTERS = b'ABCDEFGHIJKLMNOPQRSTUVWXYZabcdefghijklmnopqrstuvwxyz._'
DIGITS = b'0123456789'
HEXADECIMAL = b'0123456789abcdefABCDEF'
OCTAL = b'01234567'
# what begins a word or a blank; all other characters are odd, and odd ones that follow each other are one fault
PLAIN = b'ABCDEFGHIJKLMNOPQRSTUVWXYZabcdefghijklmnopqrstuvwxyz_0123456789 \t\v\f\r\n,[%<>{}"\'*;|=/'
GREATEST = 2147483647

# the value of each escape of one character
ESCAPES = {b'a': 7, b'b': 8, b'f': 12, b'n': 10, b'r': 13, b't': 9, b'v': 11, b'"': 34, b"'": 39, b'?': 63, b'\\': 92}
# the digits of other escapes, and how many there are
NUMBERED = {b'x': (HEXADECIMAL, 1, None), b'u': (HEXADECIMAL, 4, 4), b'U': (HEXADECIMAL, 8, 8)}

# declarations that may also be among the rules, those that may not, and what may be in a production
DECLARATIONS = ('token', 'term', 'nterm', 'type', 'left', 'right', 'nonassoc', 'binary', 'precedence', 'start', 'union',
                'code', 'destructor', 'printer', 'default-prec', 'no-default-prec')
FLAGS = ('debug', 'error-verbose', 'fixed-output-files', 'glr-parser', 'locations', 'no-lines',
         'nondeterministic-parser', 'pure-parser', 'token-table', 'verbose', 'yacc')
WITH_STRING = ('file-prefix', 'language', 'name-prefix', 'output', 'require', 'skeleton')
SETTINGS = (*FLAGS, *WITH_STRING, 'define', 'defines', 'expect', 'expect-rr', 'header', 'initial-action', 'lex-param',
            'param', 'parse-param')
IN_PRODUCTIONS = ('prec', 'empty', 'dprec', 'merge', 'expect', 'expect-rr')
DIRECTIVES = tuple(dict.fromkeys((*DECLARATIONS, *SETTINGS, *IN_PRODUCTIONS)))
# those whose names may have `_` in place of any `-`, and those that an `=` may follow
OLD = ('default-prec', 'error-verbose', 'expect-rr', 'fixed-output-files', 'name-prefix', 'no-default-prec', 'no-lines',
       'pure-parser', 'token-table')
ASSIGNED = ('file-prefix', 'name-prefix', 'output')


class Word:
    """A word: its kind, its span, and its value.

    A directive's kind is its name after the `%`. The value of code is its text and the span of that."""

    def __init__(self, kind, begin, end, value=None):
        self.kind, self.span, self.value = kind, (begin, end), value


class Scanner:
    """Reads the words of a text up to the second %% or its end. Comments and quotes have to end in the epilogue too."""

    def __init__(self, t):
        self.t, self.words, self.faults, self.epilogue = t, [], [], None

    def read(self):
        p, marks = self.blank(0), 0
        while p < len(self.t) and marks < 2:
            p = self.word(p)
            marks += self.words[-1].kind == '%%'
            p = p if marks == 2 else self.blank(p)
        if marks == 2:
            self.epilogue = self.t[p:]
            self.code(p, None)
        self.add('end', len(self.t), len(self.t))
        return self

    def add(self, kind, begin, end, value=None):
        self.words.append(Word(kind, begin, end, value))
        return end

    def fault(self, kind, begin, end, name=None):
        self.faults.append(BisonFault(kind, (begin, end), name))

    def odd_word(self, kind, begin, end, name=None):
        """Lists a fault in place of which there is no word."""
        self.fault(kind, begin, end, name)
        return self.add('fault', begin, end)

    def unended(self, kind, begin, end):
        """Lists as a fault what begins here and doesn't end. It takes the rest of the text."""
        self.odd_word(kind, begin, end)
        return len(self.t)

    def at(self, text, p):
        return self.t.startswith(text, p)

    def while_in(self, characters, p):
        while p < len(self.t) and self.t[p] in characters:
            p += 1
        return p

    # ------------------------------------------------------------ blanks, comments, and #line

    def blank(self, p):
        while p < len(self.t):
            if self.t[p] in BLANKS:
                p += 1
            elif self.at(b'//', p):
                p = self.line_end(p)
            elif self.at(b'/*', p):
                p = self.comment(p)
            elif self.line_number(p) is not None:
                p = self.line_number(p)
            else:
                break
        return p

    def line_end(self, p):
        end = self.t.find(b'\n', p)
        return len(self.t) if end < 0 else end

    def comment(self, p):
        end = self.t.find(b'*/', p + 2)
        if end >= 0:
            return end + 2
        return self.unended('IncompleteComment', p, p + 2)

    def line_number(self, p):
        """The end of a line `#line 5` or `#line 5 "file"`, with these blanks only, or None."""
        end = self.line_end(p)
        if not self.at(b'#line ', p) or p > 0 and self.t[p - 1] != 0x0A or end == len(self.t):
            return None
        number, _, file = self.t[p + 6:end].removesuffix(b'\r').partition(b' ')
        quoted = len(file) > 1 and file.startswith(b'"') and file.endswith(b'"')
        is_number = number != b'' and all(c in DIGITS for c in number)
        return end if is_number and (quoted or self.t[p + 6:end].removesuffix(b'\r') == number) else None

    # ------------------------------------------------------------ words

    def word(self, p):
        c = self.t[p:p + 1]
        if c == b'%':
            return self.percent(p)
        if self.at(b'_("', p):
            return self.translatable(p)
        if c[0] in LETTERS and self.identifier_end(p) >= self.odd_end(p):
            end = self.identifier_end(p)
            return self.add('identifier', p, end, self.t[p:end].decode())
        if c[0] in DIGITS:
            return self.number(p)
        if c == b':' and self.odd_end(p) == p + 1 or c in (b';', b'|', b'='):
            return self.add(c.decode(), p, p + 1)
        reads = {b"'": self.literal, b'"': self.string, b'<': self.tag, b'[': self.name, b'{': self.braces}
        return reads.get(c, self.odd)(p)

    def identifier_end(self, p):
        return self.while_in(LETTERS + DIGITS + b'-', p)

    def odd_end(self, p):
        while p < len(self.t) and self.t[p] not in PLAIN:
            p += 1
        return p

    def odd(self, p):
        return self.odd_word('IllegalCharacters', p, max(self.odd_end(p), p + 1))

    def number(self, p):
        end = self.while_in(DIGITS, p)
        value = self.t[p:end]
        if self.at(b'0x', p) or self.at(b'0X', p):
            hexadecimal = self.while_in(HEXADECIMAL, p + 2)
            if hexadecimal > p + 2:
                end, value = hexadecimal, self.t[p + 2:hexadecimal]
        if end < len(self.t) and self.t[end] in LETTERS:
            end = self.identifier_end(end)
            return self.odd_word('IllegalIdentifier', p, end, self.t[p:end].decode())
        number = int(value, 16 if self.t[p + 1:p + 2] in (b'x', b'X') else 10)
        if number > GREATEST:
            self.fault('IllegalInteger', p, end)
        return self.add('number', p, end, number)

    def percent(self, p):
        if self.at(b'%%', p):
            return self.add('%%', p, p + 2)
        if self.at(b'%{', p):
            return self.prologue(p)
        brace = self.while_in(b' \t\v\f\r\n', p + 2)
        if self.at(b'%?', p) and self.at(b'{', brace):
            return self.braces(p, brace, 'predicate')
        if p + 1 < len(self.t) and self.t[p + 1] in LETTERS:
            return self.directive(p, self.identifier_end(p + 1))
        return self.odd_word('IllegalCharacters', p, p + 1)

    def directive(self, p, end):
        spelled = self.t[p + 1:end].decode()
        name = spelled.replace('_', '-')
        if name not in (OLD if '_' in spelled else DIRECTIVES):
            return self.odd_word('UnknownDirective', p, end, spelled)
        equals = self.while_in(b' \t\v\f\r\n', end)
        if name in ASSIGNED and self.at(b'=', equals):
            end = equals + 1
        return self.add('%' + name, p, end)

    # ------------------------------------------------------------ literals and strings

    def literal(self, p):
        value, _, end = self.quoted(p, b"'", 'IncompleteLiteral')
        if len(value) != 1:
            self.fault('LongLiteral' if value else 'EmptyLiteral', p, end)
        return self.add('literal', p, end, chr(value[0]) if value else '?')

    def string(self, p):
        value, close, end = self.quoted(p, b'"', 'IncompleteString')
        return self.add('string', p, end, (self.spelling(p, close), value))

    def translatable(self, p):
        value, close, end = self.quoted(p + 2, b'")', 'IncompleteString')
        return self.add('translatable', p, end, (self.spelling(p + 2, close), value))

    def spelling(self, p, close):
        return self.t[p + 1:close].decode('utf-8', 'surrogateescape')

    def quoted(self, p, close, kind):
        """The bytes between the quotes at p, with escapes replaced, and the offsets of their end and after it.

        Quotes that don't end go up to the line's end."""
        value, end = bytearray(), p + 1
        while end < len(self.t) and not self.at(b'\n', end):
            if self.at(close, end):
                return value, end, end + len(close)
            if self.at(b'\\', end):
                character, end = self.escape(end)
            else:
                character, end = self.plain(end)
            value.append(character)
        self.fault(kind, p, p + 1)
        return b'?', end, end

    def plain(self, p):
        if self.t[p] == 0:
            self.fault('IllegalCharacters', p, p + 1)
        return self.t[p] or 63, p + 1

    def escape(self, p):
        """The character of the escape at p, up to 255, and the offset after it. For a wrong escape it is a `?`."""
        letter = self.character(p + 1)
        if letter in ESCAPES:
            return ESCAPES[letter], p + 2
        if letter and letter in OCTAL:
            return self.numbered_escape(p, p + 1, OCTAL, 1, 3)
        if letter in NUMBERED:
            return self.numbered_escape(p, p + 2, *NUMBERED[letter])
        self.fault('IllegalEscape', p, p + 1 + len(letter))
        return 63, p + 1 + len(letter)

    def character(self, p):
        end = p + 1
        while end < len(self.t) and self.t[end] & 0xC0 == 0x80:
            end += 1
        return self.t[p:end]

    def numbered_escape(self, p, digits, allowed, least, most):
        end = self.while_in(allowed, digits)
        end = end if most is None else min(end, digits + most)
        if end < digits + least:
            self.fault('IllegalEscape', p, digits)
            return 63, digits
        value = int(self.t[digits:end], len(set(allowed.lower())))
        if not 0 < value < 256:
            self.fault('IllegalEscape', p, end)
        return (value if 0 < value < 256 else 63), end

    # ------------------------------------------------------------ tags, names in brackets

    def tag(self, p):
        for whole in (b'<*>', b'<>'):
            if self.at(whole, p):
                return self.add(whole.decode(), p, p + len(whole))
        depth, end = 1, p + 1
        while end < len(self.t):
            c = self.t[end:end + 1]
            depth += (c == b'<') - (c == b'>' and self.t[end - 1:end] != b'-')
            end += 1
            if depth == 0:
                return self.add('tag', p, end)
        return self.unended('IncompleteTag', p, p + 1)

    def name(self, p):
        begin = self.blank(p + 1)
        end = self.identifier_end(begin) if begin < len(self.t) and self.t[begin] in LETTERS else begin
        close = self.blank(end)
        if not self.at(b']', close) or begin == end:
            bracket = self.t.find(b']', close)
            if bracket < 0:
                return self.unended('IncompleteName', p, p + 1)
            self.fault('IllegalName', close, close)
            close = bracket
        return self.add('name', p, close + 1, self.t[begin:end].decode())

    # ------------------------------------------------------------ code

    def prologue(self, p):
        end = self.code(p + 2, b'%}')
        if end is None:
            return self.unended('IncompletePrologue', p, p + 2)
        return self.add('prologue', p, end)

    def braces(self, p, brace=None, kind='code'):
        brace = p if brace is None else brace
        end = self.code(brace + 1, b'}')
        if end is None:
            return self.unended('IncompleteCode', p, brace + 1)
        text = self.t[brace + 1:end - 1].decode('utf-8', 'replace').strip(WHITE_SPACE)
        return self.add(kind, p, end, (text, (brace + 1, brace + 1 + len(text.encode('utf-8')))))

    def code(self, p, close):
        """The offset after the `%}`, or the brace, that ends the code at p, or None if the text ends before.

        A line that ends with a backslash goes on in the next. `<%` and `%>` are braces, but `%>` doesn't end the code.
        """
        depth = 1
        while p < len(self.t):
            if close == b'%}' and self.at(close, p):
                return p + 2
            if close == b'}' and self.at(b'}', p) and depth <= 1:
                return p + 1
            depth += self.brace(p)
            p = self.code_piece(p)
        return None

    def brace(self, p):
        """By how much the depth of braces changes at p."""
        if self.at(b'{', p) or self.pair(b'<', b'%', p):
            return 1
        return -1 if self.at(b'}', p) or self.pair(b'%', b'>', p) else 0

    def code_piece(self, p):
        """The offset after the comment, the quotes, the pair or the character at p."""
        if self.pair(b'/', b'*', p):
            return self.code_comment(p)
        if self.pair(b'/', b'/', p):
            return self.code_line_end(p)
        if self.at(b'"', p) or self.at(b"'", p):
            return self.code_quotes(p)
        pairs = (b'<%', b'%>', b'<<')
        return next((end for it in pairs for end in [self.pair(it[:1], it[1:], p)] if end), p + 1)

    def pair(self, first, second, p):
        """The offset after the two characters at p, on one line or on several by backslashes, or None."""
        rest = self.spliced(p + 1)
        return rest + 1 if self.at(first, p) and self.at(second, rest) else None

    def spliced(self, p):
        """The offset after the backslashes at p that end lines, with blanks after them."""
        while self.at(b'\\', p):
            end = self.while_in(b' \t\v\f', p + 1)
            end += self.at(b'\r\n', end)
            if not self.at(b'\n', end):
                break
            p = end + 1
        return p

    def code_comment(self, begin):
        p = self.pair(b'/', b'*', begin)
        while p < len(self.t):
            end = self.pair(b'*', b'/', p)
            if end:
                return end
            p += 1
        self.fault('IncompleteComment', begin, begin + 2)
        return p

    def code_line_end(self, p):
        while p < len(self.t) and not self.at(b'\n', p):
            p = max(self.spliced(p), p + 1)
        return p

    def code_quotes(self, begin):
        """The offset after the quotes at begin. A character after a backslash doesn't end them."""
        quote, p = self.t[begin:begin + 1], begin + 1
        while p < len(self.t) and not self.at(b'\n', p):
            if self.at(quote, p):
                return p + 1
            after = self.spliced(p)
            if after == p and self.at(b'\\', p):
                after = self.spliced(p + 1)
                after += not self.at(b'\n', after)
            p = min(max(after, p + 1), len(self.t))
        self.fault('IncompleteString' if quote == b'"' else 'IncompleteLiteral', begin, begin + 1)
        return p


def marked(words):
    """The words, where an identifier is a `head` if a colon follows, or a name in brackets and a colon."""
    for i, word in enumerate(words):
        after = i + 2 if i + 1 < len(words) and words[i + 1].kind == 'name' else i + 1
        if word.kind == 'identifier' and after < len(words) and words[after].kind == ':':
            word.kind = 'head'
    return words


def words_of(t):
    """The words of a text, the faults in them, and its epilogue or None."""
    scanner = Scanner(t).read()
    return marked(scanner.words), scanner.faults, scanner.epilogue
