"""Random grammars in the syntax of Bison, most of them with conflicts, for tools/beside_bison: few rules and tokens,
precedences, empty productions, nullable rules beside others, useless rules."""

RULES = ('s', 't', 'u', 'v', 'w', 'x')
TOKENS = ('A', 'B', 'C', "'+'", "'*'")
# END has the number 0. With %glr-parser Bison fails on some grammars, and on many that have the end token in productions
RARE = (('error',), ('YYEOF',), ('END',), ('error', 'YYEOF'))
SETTINGS = ('', '', '', '', '%start s\n', '%expect 1\n', '%expect 0\n', '%glr-parser\n%expect-rr 1\n')
LEVELS = ('%left', '%right', '%nonassoc', '%precedence')


class ConflictTexts:
    """Makes such texts from random numbers."""

    def __init__(self, random):
        self.random = random

    def make(self):
        """A text. Some have many precedences and some none, and likewise with empty productions."""
        self.rules = RULES[:self.random.randint(1, len(RULES))]
        self.tokens = TOKENS[:self.random.randint(1, 5)]
        if self.random.random() < 0.15:
            self.tokens += self.random.choice(RARE)
        self.empty, self.rule_share = self.random.choice((0, 0.1, 0.1, 0.3)), self.random.choice((0.3, 0.5, 0.7))
        self.named_share = self.random.choice((0, 0, 0.2))
        is_simple = self.random.random() < 0.3
        rules = [self.expressions(), *map(self.rule, self.rules[1:])] if is_simple else [*map(self.rule, self.rules)]
        if self.random.random() < 0.1:
            rules.append(self.rule(self.random.choice(self.rules)))
        return ''.join([*self.declarations(), '%%\n', *rules])

    def some(self, them, share):
        return tuple(it for it in them if self.random.random() < share)

    # ------------------------------------------------------------ declarations

    def declarations(self):
        yield '%token A B C\n%token END 0\n' if 'END' in self.tokens else '%token A B C END\n'
        yield self.random.choice(SETTINGS[:-1] if {'END', 'YYEOF'} & {*self.tokens} else SETTINGS)
        yield from self.some(('%no-default-prec\n',), 0.06)
        with_level = list(self.some((*self.tokens, 'LOW', 'HIGH'), self.random.choice((0, 0.5, 0.9, 1))))
        self.random.shuffle(with_level)
        while with_level:
            count = self.random.choice((1, 1, 2, 3))
            yield '%s %s\n' % (self.random.choice(LEVELS), ' '.join(with_level[:count]))
            with_level = with_level[count:]

    # ------------------------------------------------------------ rules

    def symbol(self):
        return self.random.choice(self.rules if self.random.random() < self.rule_share else self.tokens)

    def named(self):
        """A %prec, now and then."""
        names = (*self.tokens, 'LOW', 'HIGH')
        return ' %prec ' + self.random.choice(names) if self.random.random() < self.named_share else ''

    def production(self):
        if self.random.random() < self.empty:
            return '%empty' + self.named()
        symbols = [self.symbol() for _ in range(self.random.choice((1, 1, 2, 2, 3, 3, 4)))]
        if self.random.random() < 0.03:
            symbols.insert(self.random.randint(0, len(symbols)), '{ }')
        return ' '.join(symbols) + self.named()

    def rule(self, name):
        productions = [self.production() for _ in range(self.random.choice((1, 2, 2, 3)))]
        if self.random.random() < (0.95 if name == 's' else 0.6):
            productions.append(self.random.choice(self.tokens) + self.named())
        return '%s: %s;\n' % (name, ' | '.join(productions))

    def expressions(self):
        """A rule of expressions."""
        tokens = [self.random.choice(self.tokens) for _ in range(self.random.randint(1, 4))]
        forms = ('s %s s', 's %s s', 's %s s', '%s s', 's %s', '%s s A s', 's s %s')
        productions = [self.random.choice(forms) % it + self.named() for it in tokens]
        productions += [self.random.choice(self.tokens + self.rules[1:])] + ['s s'] * (self.random.random() < 0.1)
        self.random.shuffle(productions)
        return 's: %s;\n' % ' | '.join(productions)
