"""What each name in a term means: a definition, or what the term itself binds."""
from .antt import FOLLOWED, NAME, OPEN, Definition, closing

RESERVED = set("""data record deriving module where use mod pub package open as unfoldable abbrev axiom unfold unfolding
ruleset mutual infix infixl infixr elim let in do λ ∀ Type 𝕀 𝔽 coe fcoe tcoe hcom com ∨ ∧ → × ↦ | : = _
; , . ⟦ ⟧ ⌜ ⌝ ⊔ ( ) { } [ ] @ « » ?""".split())
# words of the logic that need no import, and the tactics that prove what a definition has to have, as that of a kind of words
KNOWN = set("⊥ Unit tt absurd ¬ 𝓛 V vin vproj Prim refl IsProp IsSet Discrete yes no cc omega".split())


class Names:
    """The names that a file, or a part of it, knows: by `find`, whole names and operators by their parts."""

    def __init__(self, find, known):
        self.find, self.parts = find, {}
        for name in known:
            if "◌" in name:
                self.parts.update({part: name for part in name.split("◌") if part})

    def meaning(self, word):
        """What a word means, and its length: of `faults.OutOfMemory`, the variant; of `core.x`, what `core` means."""
        found = self.find(word) or (self.find(self.parts[word]) if word in self.parts else None)
        if found:
            return found, len(word)
        head = word
        while "." in head:
            head = head.rpartition(".")[0]
            found = self.find(head) if head else None
            if found:
                return found, len(head)
        return None, 0


class Walk:
    """Goes through a term, and collects what its names mean and those that mean nothing."""

    def __init__(self, tokens, names, local):
        self.tokens, self.names = tokens, names
        self.cites, self.unknown, self.local = {}, [], set(local)

    def words(self, first, last):
        return [it.text for it in self.tokens[first:last]]

    def is_bound_group(self, at, end):
        """Whether a bracket holds names and their type."""
        place = at + 1
        while place < end and NAME.match(self.tokens[place].text) or self.tokens[place].text == "_":
            place += 1
        return place > at + 1 and self.tokens[place].text == ":"

    def bound_group(self, at, end, local):
        """Walks through a bracket that holds names and their type; returns the names."""
        colon = next(it for it in range(at, end) if self.tokens[it].text == ":")
        self.walk(colon + 1, end, local)
        return {it for it in self.words(at + 1, colon)}

    def binders(self, at, local):
        """The names that a λ at this place binds, and the place of its dot."""
        found, at = set(), at + 1
        while self.tokens[at].text != ".":
            if self.tokens[at].text in OPEN:
                end = closing(self.tokens, at)
                if self.is_bound_group(at, end):
                    found |= self.bound_group(at, end, local | found)
                else:
                    found |= {it for it in self.words(at, end) if NAME.match(it)}
                at = end
            else:
                found.add(self.tokens[at].text)
            at += 1
        return found, at

    def pattern(self, first, last, local):
        """The names that a pattern binds; its constructors are cited."""
        found = set()
        for at in range(first, last):
            word = self.tokens[at].text
            if word in RESERVED or not NAME.match(word):
                continue
            meaning, _ = self.names.meaning(word)
            is_constructor = getattr(meaning, "kind", "") in ("constructor", "variant", "built in")
            if at + 1 < last and self.tokens[at + 1].text == "=":
                continue
            if is_constructor or meaning is not None and (word in self.names.parts or "." in word):
                self.cite(at, meaning)
            else:
                found.add(word)
        return found

    def cite(self, at, meaning):
        self.cites[at] = meaning

    def name(self, at, local):
        """Looks a name up."""
        word = self.tokens[at].text
        if word in RESERVED or not word.strip("«»") or word[0].isdigit() or word[0] in ".?\"":
            return
        head = word.split(".")[0]
        if word in local or head in local:
            return
        meaning, _ = self.names.meaning(word)
        if meaning is not None:
            self.cite(at, meaning)
        elif head not in KNOWN and head not in self.names.parts:
            self.unknown.append(at)

    def walk(self, first, last, local):
        """Walks through the tokens of one bracket, or of a whole term."""
        inside, at = set(local), first
        while at < last:
            token = self.tokens[at]
            word, kind = token.text, token.kind
            if kind != "Antt":
                at += 1
            elif word == "λ":
                bound, at = self.binders(at, inside)
                inside |= bound
            elif word in OPEN:
                end = closing(self.tokens, at)
                inside |= self.bracket(at, end, inside, first)
                at = end
            elif word == "let":
                inside.add(self.tokens[at + 1].text)
                at += 1
            elif word in (";", "|", ","):
                inside = set(local)
            elif at + 1 < last and self.tokens[at + 1].text == "." and NAME.match(word):
                inside.add(word)
                at += 1
            elif at + 1 < last and self.tokens[at + 1].text == "←":
                inside.add(word)
                at += 1
            else:
                self.name(at, inside)
            at += 1

    def bracket(self, at, end, local, first):
        """Walks through a bracket; returns the names that it binds for what comes after it."""
        before = self.words(max(at - 2, first), at)
        if self.tokens[at].text == "{" and "record" in before:
            self.record(at, end, local)
        elif self.is_bound_group(at, end):
            return self.bound_group(at, end, local)
        elif self.tokens[at].text == "{" and "use" in before:
            return {it for it in self.words(at + 1, end) if NAME.match(it)}
        elif self.tokens[at].text == "[" and "↦" in self.words(at, end):
            self.cases(at, end, local)
        elif self.tokens[at].text == "{" and self.tokens[at + 2].text == "=":
            self.walk(at + 3, end, local)
        else:
            self.walk(at + 1, end, local)
        return set()

    def record(self, at, end, local):
        """The fields of a record's literal."""
        for begin, stop in self.parts(at + 1, end, ";"):
            is_field = begin + 1 < stop and self.tokens[begin + 1].text == "="
            self.walk(begin + 2 if is_field else begin, stop, local)

    def cases(self, at, end, local):
        """The cases of an `elim`."""
        for begin, stop in self.parts(at + 1, end, "|"):
            arrow = next((it for it in range(begin, stop) if self.tokens[it].text == "↦"), begin)
            self.walk(arrow + 1, stop, local | self.pattern(begin, arrow, local))

    def parts(self, first, last, mark):
        """The parts between the marks that are in no bracket."""
        begin, at = first, first
        while at < last:
            if self.tokens[at].text in OPEN:
                at = closing(self.tokens, at)
            elif self.tokens[at].text == mark:
                yield begin, at
                begin = at + 1
            at += 1
        if begin < last:
            yield begin, last


def names_of(library, imports, own):
    """The names that a file knows: its own, and those that it imports."""

    def find(word):
        if word in own:
            return own[word]
        if word in imports.names:
            return library.find(*imports.names[word])
        head, _, rest = word.partition(".")
        if rest and head in imports.modules:
            place, names = imports.modules[head], rest.split(".")
            for count in range(len(names)):
                found = library.find(".".join([place, *names[:count]]), names[count])
                if found:
                    return found
        return None

    return Names(find, [*own, *imports.names])


def read_definition(library, definition, names):
    """Finds what a definition cites."""
    # what a ruleset lists is for proofs, and no part of what a definition says
    if not definition.module.path.startswith(FOLLOWED) or definition.kind == "ruleset":
        return
    module, tokens = definition.module, definition.module.source.tokens
    walk = Walk(tokens, names, set())
    local = set()
    for first, last in definition.parameters:
        walk.walk(first, last, local)
        local |= bound_in(walk, first, last)
    if definition.kind == "definition":
        read_equations(walk, definition, local)
    else:
        read_members(walk, definition, local)
    definition.cites = {at: it for at, it in walk.cites.items() if definition.first <= at < definition.last}
    definition.unknown = [walk.tokens[it].text for it in walk.unknown]


def bound_in(walk, first, last):
    """The names that a row of brackets binds."""
    found, at = set(), first
    while at < last:
        if walk.tokens[at].text in OPEN:
            end = closing(walk.tokens, at)
            found |= set(walk.words(at + 1, next((it for it in range(at, end) if walk.tokens[it].text == ":"), end)))
            at = end
        at += 1
    return found


def read_equations(walk, definition, local):
    """A signature and its equations."""
    module, tokens = definition.module, walk.tokens
    statements = module.source.statements(definition.first, definition.last)
    if not definition.is_open:
        statements = statements[:1]
    for begin, end in statements:
        words = walk.words(begin, end)
        if words[0] == "unfolding":
            walk.walk(begin + 1, end, local)
            continue
        if begin == definition.first:
            colon = words.index(":")
            levels = {it for it in words[:colon] if it.startswith(("ℓ", "κ"))}
            local = local | levels
            walk.walk(begin + colon + 1, end, local)
            continue
        equals = equals_at(walk, begin, end)
        own = definition.name
        parts = {part for part in own.split("◌") if part} if "◌" in own else {own}
        bound = walk.pattern(begin, equals, local) - parts
        body_end = where_at(walk, equals, end)
        walk.walk(equals + 1, body_end, local | bound | local_names(walk, body_end, end))
        if body_end < end:
            read_where(walk, body_end + 1, end, local | bound | local_names(walk, body_end, end), module)


def where_at(walk, first, last):
    return next((it for it in range(first, last) if walk.tokens[it].text == "where"), last)


def local_names(walk, first, last):
    """The names of the definitions in a `where` block."""
    tokens = walk.tokens
    named = [it for it in range(first, last - 1) if tokens[it + 1].text == ":"]
    return {tokens[it].text for it in named if NAME.match(tokens[it].text)}


def read_where(walk, first, last, local, module):
    """The local definitions of an equation."""
    for begin, end in module.source.statements(first, last):
        words = walk.words(begin, end)
        if len(words) > 1 and words[1] == ":":
            walk.walk(begin + 2, end, local)
        else:
            equals = equals_at(walk, begin, end)
            walk.walk(equals + 1, end, local | walk.pattern(begin, equals, local))


def equals_at(walk, first, last):
    """The place of the sign that ends an equation's left side."""
    at = first
    while at < last:
        if walk.tokens[at].text in OPEN:
            at = closing(walk.tokens, at)
        elif walk.tokens[at].text == "=":
            return at
        at += 1
    return last


def read_members(walk, definition, local):
    """The parameters of a record or a data type, and its fields or constructors."""
    tokens = walk.tokens
    where = where_at(walk, definition.first, definition.last)
    at = next(it for it in range(definition.first, where) if tokens[it].text == definition.name)
    local = local | {it for it in walk.words(definition.first, where) if it.startswith("ℓ")}
    place = at + 1
    while place < where and tokens[place].text in OPEN:
        end = closing(tokens, place)
        if walk.is_bound_group(place, end):
            local = local | walk.bound_group(place, end, local)
        place = end + 1
    walk.walk(place, where, local)
    for member in definition.members:
        if tokens[member.first].text != "deriving":
            colon = next((it for it in range(member.first, member.last) if tokens[it].text == ":"), member.last)
            walk.walk(colon + 1, member.last, local)
        if member.kind == "field":
            local = local | {member.name}


def closure(library, roots):
    """Reads what definitions cite, and what these cite; returns all that is reached, in order."""
    reached, pending, known = [], [it for it in roots if isinstance(it, Definition)], {}
    seen, prepared = set(), set()
    while pending:
        library.prepare({path for module in {it.module for it in pending} - prepared for path in module.sought()})
        prepared |= {it.module for it in pending}
        later = []
        for it in pending:
            it = it.whole
            if it in seen:
                continue
            seen.add(it)
            reached.append(it)
            if it.module.path not in known:
                known[it.module.path] = names_of(library, it.module.imports, it.module.named)
            read_definition(library, it, known[it.module.path])
            later += [found for found in it.cites.values() if isinstance(found, Definition)]
        pending = later
    return reached
