"""Texts for tools/fuzz in the syntax of Bison: random grammars, and those of cases and examples, with changes."""
import glob

from .fuzz_texts import ACTIONS, BLANKS, CHARACTERS, LONGEST, Texts

NAMES = ('A', 'B', 'C', 'D', 's', 't', 'u', 'NUM', 'NUMBER', 'a-b', 'x.y', '_', 'error', 'YYEOF', 'YYerror', 'YYUNDEF')
LITERALS = ("'a'", "'+'", "'\\n'", "'\\''", "'\"'", "'\\\\'", "'\\x42'", "'x'", "'\\102'", "'\\u0041'", "'A'", "'\\x'",
            "''", "'ab'", "'é'", "'\\q'", "'\\0'", "'", "'\\400'", "'\\U00000042'", "'\\7'", "'\\é'")
STRINGS = ('"a"', '"+"', '"number"', '_("x")', '"\\""', '"\\n"', '"é日"', '""', '"', '"NUM"', '"\\x4"', '_("')
TAGS = ('<t>', '<n>', '<struct a *>', '<a->b>', '<a<b>>', '<*>', '<>', '<', '<é>')
CODE = (*ACTIONS, '{ $$ = $1; }', '{ "}" }', "{ '}' }", '{ /* } */ }', '{ // }\n }', '{ { } }', '{ "\\"}" }',
        '{ <% %> }', '{ a\\\nb }', "{ '{ }", '{ /\\\n* } */ }', '%?{ x }', '%? {\n}', '{ é }', '{ @1 $<t>2 }', '{ " }',
        '{ R"x(})x" }', '{\t$3 /* $9 */ }', '{ a / $<t>12 \'\\\'\' "$8" // $7\n @5 }', '{ $$ }', '{ $<t>$ }',
        '{ $$ = $2; }', '{ $[x] }', '{ /* $$ */ $x }', '{ "$$" @$ }')
PROLOGUES = ('%{ x %}', '%{ "%}" %}', '%{ /* %} */ %}', '%{', '%{\n#include <x.h>\n%}', '%{ \'%}')
NUMBERS = ('0', '1', '300', '0x1F', '2147483648', '1st', '0xg', '007')
LISTS = ('%token', '%token', '%token', '%term', '%nterm', '%type', '%left', '%right', '%nonassoc', '%binary',
         '%precedence')
RIGHT = (
    '%start s', '%expect 1', '%expect-rr 2', '%expect_rr 3', '%union { int n; }',
    '%union u {}', '%code requires { }', '%code { "}" }', '%destructor { } A <t>', '%printer { } <*> s "a"',
    '%define api.pure full', '%define x "y"', '%define z {code}', '%debug', '%locations', '%pure-parser',
    '%pure_parser', '%no_lines', '%parse-param {int *a} {b}', '%lex-param {}', '%param {}', '%initial-action {}', '%require "3.8"',
    '%output = "f"', '%file-prefix "f"', '%name-prefix="f"', '%name_prefix "f"', '%defines', '%header "h"', '%verbose',
    '%default-prec', '%no-default-prec', '%no_default_prec', '%yacc', '%skeleton "x"', '%language "c"', '%glr-parser',
    '%token_table', '%error-verbose', '%nondeterministic-parser', '%fixed-output-files')
OTHERS = (*RIGHT, '%start s t', '%start A', '%start "a"', '%tokne A', '%prec A', '%destructor', '%type', '%epp A "a"',
          '%expect-unused s')
MODIFIERS = ('%prec A', '%prec \'+\'', '%prec "a"', '%empty', '%dprec 1', '%dprec 0', '%merge <f>', '%expect 1',
             '%expect-rr 0', '%prec', '%prce A')
MARKS = ('%%', ';', '|', ',', ' ,', ':', '=', '[', ']', '[x]', '[ a.b ]', '[1]', '%', '@', '$', '%?', '}', '>', '#line 5\n',
         '\n#line 5\n')
FORMATS = ('', '', '', '--format=json ', '--format=github ', '--format=sarif ')
STATES = ('', '', '--states ')
LEVELS = ('', '', '--warn all ', '--warn=implicit-empty --warn useless-symbol ', '--deny cyclic-rule ',
          '--deny reduce-reduce --allow unmet-expect ', '--columns bytes ')
KINDS = ('--kind bison ', '--kind bison ', '--kind yacc ', '', '', '--default-kind bison ', '--kind original-noaction ')


def seeds(root, cases_of):
    """The texts of the cases and of the examples."""
    found = [case.text.decode() for case in cases_of(f'{root}/tools/by_rules/bison_cases.txt')]
    for path in sorted(glob.glob(f'{root}/examples/*.y')):
        with open(path, encoding='utf-8', newline='') as file:
            found.append(file.read())
    return [it for it in found if len(it) <= 2 * LONGEST]


class BisonTexts(Texts):
    """Makes such texts from random numbers."""

    def make(self):
        """The type of a row, the arguments of cfglint, and a text."""
        pick = self.random.random()
        if pick < 0.35:
            text = self.changed(max(self.random.choices(self.found, k=2), key=len))
        elif pick < 0.45:
            text = ''.join(self.word() + self.blank() for _ in range(self.random.randint(0, 25)))
        else:
            text = self.file() if pick < 0.8 else self.changed(self.file())
        return 'lint', ''.join(map(self.random.choice, (KINDS, FORMATS, LEVELS, STATES))) + '-', text

    def word(self):
        kinds = (NAMES, NAMES, LITERALS, STRINGS, TAGS, CODE, PROLOGUES, NUMBERS, LISTS, OTHERS, MODIFIERS, MARKS,
                 BLANKS, CHARACTERS)
        return self.random.choice(self.random.choice(kinds))

    def joined(self, text):
        other = self.random.choice(self.found)
        return text[:self.random.randint(0, len(text))] + other[self.random.randint(0, len(other)):]

    # ------------------------------------------------------------ grammars

    def mostly(self, usual, rare):
        """One of these, or in a text that may be wrong now and then one of those."""
        return self.random.choice(rare if self.may_be_wrong and self.random.random() < 0.1 else usual)

    def token(self):
        return self.mostly((*NAMES[:4], *LITERALS[:8]), (*NAMES, *LITERALS, *STRINGS))

    def graded(self):
        """A token that has no precedence so far, or in a text that may be wrong any."""
        self.left = [it for it in self.left if it != self.graded_last] or ["'%c'" % self.random.randrange(48, 58)]
        self.graded_last = self.random.choice(self.left)
        return self.mostly((self.graded_last,), (*NAMES, *LITERALS, *STRINGS))

    def listed(self, keyword):
        """A symbol of a list, with what may follow it."""
        if keyword in ('%nterm', '%type'):
            return self.mostly(self.names, (*NAMES, *LITERALS))
        if keyword not in ('%token', '%term'):
            return self.graded()
        after = (' 300', ' 0x1F', ' "a"', ' "number"', '"+"', ' 5 "b"', ' _("x")')
        return self.token() + self.random.choice(('',) * 12 + after)

    def declaration(self, _=None):
        pick = self.random.random()
        if pick < 0.15:
            return self.mostly(PROLOGUES[:3], PROLOGUES) + self.blank()
        if pick < 0.35:
            return self.mostly(RIGHT, OTHERS) + '\n'
        keyword = self.random.choice(LISTS)
        tag = self.mostly((' ', ' ', ' <t> ', '<n>', ' <n> '), (' ', *TAGS))
        symbols = (self.listed(keyword) for _ in range(self.random.randint(1, 1 + 3 * (keyword[1] in 'tn'))))
        return keyword + tag + ' '.join(symbols) + '\n'

    def item(self):
        """A part of a production."""
        pick = self.random.random()
        if pick < 0.8:
            symbol = self.mostly(self.names, NAMES) if self.random.random() < 0.45 else self.token()
            return symbol + self.mostly(('',) * 8 + ('[x]', '[ a.b ]'), MARKS)
        if pick < 0.93:
            return self.random.choice(('', '', '', '<t>')) + self.mostly(CODE[:5] + CODE[7:13], CODE)
        return self.mostly(('%dprec 1', '%merge <f>', '%expect 1', '%expect-rr 0'), MODIFIERS)

    def production(self):
        if self.random.random() < 0.1:
            return self.random.choice(('', '%empty', '%empty { }', '%prec A', '{ }'))
        items = ''.join(' %s ' % self.item() + self.blank() for _ in range(self.random.randint(1, 3)))
        return items + self.random.choice(('',) * 5 + (" %prec '+'", ' %prec B'))

    def rule(self, kind, name):
        productions = '|'.join(self.production() for _ in range(self.random.randint(1, 3)))
        head = name + self.random.choice(('', '', '', '[n]', ' [n] ')) + self.random.choice((':', ':', ' : '))
        return head + productions + self.random.choice((';', ';', '\n', ' ;;')) + self.blank()

    def file(self):
        self.may_be_wrong = self.random.random() < 0.4
        self.names = ('s', 't', 'u', 'a-b', 'x.y')[:self.random.randint(1, 5)]
        self.left, self.graded_last = [*NAMES[:4], *LITERALS[:8]], None
        tokens = self.mostly(('%token A B C D\n', '%left A B\n%token C D '), ('',))
        head = ''.join(self.some(4, self.declaration)) + tokens
        parts = [self.rule('', it) for it in self.names]
        if self.random.random() < 0.15:
            parts.insert(self.random.randint(0, len(parts)), self.declaration().rstrip() + self.mostly((';\n',), ('',)))
        end = self.mostly(('', '', '%%', '%% é "}" \n'), ('%% /* ', "%% ' "))
        return head + '%%' + self.random.choice(BLANKS[:5]) + ''.join(parts) + end
