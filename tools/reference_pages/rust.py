"""The items of Rattle's files: types, traits, functions and their parts, with doc comments and clauses."""
import glob
import os
import re
import sys

from modules.programs import ROOT

from .antt import Imports
from .sources import is_file, source

sys.path.insert(0, f"{ROOT}/tools")
import expected

surface = expected.load("surface")
KINDS = ("struct", "enum", "trait", "fn", "const", "static", "type", "mod", "impl")
BEFORE = ("const", "unsafe", "async", "extern")


class Clause:
    """A clause, or a ghost item: its words before the brace, and its tokens' places."""

    def __init__(self, words, span):
        self.words, (self.first, self.last), self.doc = words, span, ""
        self.cites, self.unknown = {}, []

    @property
    def keyword(self):
        return self.words[0]

    @property
    def name(self):
        if self.keyword == "=":
            return "by default"
        return next((it for it in self.words[1:] if it not in ("*", ":", "=")), "")


class Item:
    """An item, a field, a variant or a method. `head` are the places of the tokens that say what it is."""

    def __init__(self, kind, name, scope, span, doc, is_public):
        self.kind, self.name, self.scope, self.doc, self.is_public = kind, name, scope, doc, is_public
        self.first, self.last = span
        self.head = span
        self.clauses, self.members, self.ghosts, self.derives, self.impls = [], [], [], [], []
        self.owner, self.parameters, self.target, self.implemented = None, set(), None, []
        self.path, self.other_paths, self.page = None, [], None

    @property
    def source(self):
        return self.scope.source

    def words(self, span=None):
        first, last = span or self.head
        return [it.text for it in self.source.tokens[first:last]]

    @property
    def whole(self):
        return self.owner or self

    def __repr__(self):
        return f"{self.kind} {self.path or self.name}"


class Scope:
    """A module's file, with its items and imports; or a block of it with more imports of ghosts."""

    def __init__(self, crate, path, file):
        self.crate, self.path, self.source = crate, path, source(file)
        self.uses, self.passed, self.items, self.children, self.impls = {}, {}, {}, {}, []
        self.ghosts, self.doc = Imports(), self.source.head_comment("//!")
        self.public_children = []
        Reader(self).read_items(0, len(self.source.tokens))

    def inside(self, ghosts):
        """The same for a block that imports more ghosts."""
        made = object.__new__(Scope)
        made.__dict__.update(self.__dict__)
        made.ghosts = Imports().copy_of(self.ghosts).copy_of(ghosts)
        return made


class Reader:
    """Reads the items of a file."""

    def __init__(self, scope):
        self.scope, self.source, self.tokens = scope, scope.source, scope.source.tokens

    def text(self, at):
        return self.tokens[at].text if at < len(self.tokens) else ""

    def closing(self, at):
        """The place of the token that closes the bracket of Rust's at this place; what is ghost counts for nothing."""
        depth = 0
        for place in range(at, len(self.tokens)):
            if self.tokens[place].kind == "Code":
                depth += (self.tokens[place].text in "([{") - (self.tokens[place].text in ")]}")
                if depth == 0:
                    return place
        raise SystemExit(f"reference: {self.source.file}: nothing closes a bracket")

    def read_items(self, first, last):
        """Reads the items of a file or of a module's block."""
        at = first
        while at < last:
            at = self.read_item(at)

    def attributes(self, at):
        """The derived traits in the attributes from this place on, and the place after them."""
        derives = []
        while self.text(at) == "#":
            at += 1 + (self.text(at + 1) == "!")
            end = self.closing(at)
            if self.text(at + 1) == "derive":
                derives += [it.text for it in self.tokens[at + 3:end - 1] if it.text not in (",", "::")]
            at = end + 1
        return derives, at

    def visibility(self, at):
        """Whether `pub` is at this place, and the place after it."""
        if self.text(at) != "pub" or self.tokens[at].kind != "Code":
            return False, at
        if self.text(at + 1) == "(":
            return False, self.closing(at + 1) + 1
        return True, at + 1

    def read_item(self, begin):
        """Reads an item; returns the place after it."""
        derives, at = self.attributes(begin)
        first = at
        is_public, at = self.visibility(at)
        while self.text(at) in BEFORE and self.text(at + 1) in ("fn", *BEFORE):
            at += 1
        word = self.text(at)
        if word == "ghost" and self.text(at + 1) == "use":
            return self.read_ghost_use(at + 1, self.scope.ghosts)
        if word == "use":
            return self.read_use(at, is_public)
        if word not in KINDS:
            return self.semicolon(at) + 1
        if word == "mod":
            return self.read_mod(at, is_public, self.doc(begin))
        if word == "impl":
            return self.read_impl(at)
        made, end = self.read_named(word, (first, at), self.doc(begin), is_public)
        made.derives = derives
        self.scope.items.setdefault(made.name, []).append(made)
        return end

    def doc(self, at):
        return self.source.comment(at, "///")

    def semicolon(self, at):
        """The place of the semicolon, or of the end of the block, that ends an item."""
        while at < len(self.tokens):
            if self.tokens[at].kind == "Code" and self.text(at) in "([{":
                at = self.closing(at)
                if self.text(at) == "}":
                    return at
            elif self.text(at) == ";" and self.tokens[at].kind == "Code":
                return at
            at += 1
        return at

    def read_ghost_use(self, at, imports):
        end = next(it for it in range(at, len(self.tokens)) if self.text(it) == ";" and self.tokens[it].kind == "Code")
        imports.add([it.text for it in self.tokens[at + 1:end]])
        return end + 1

    def read_use(self, at, is_public):
        end = self.semicolon_of_use(at)
        names = surface.imports([it.text for it in self.tokens[at + 1:end]])
        self.scope.uses.update(names)
        if is_public:
            self.scope.passed.update(names)
        return end + 1

    def semicolon_of_use(self, at):
        return next(it for it in range(at, len(self.tokens)) if self.text(it) == ";")

    def read_mod(self, at, is_public, doc):
        name = self.text(at + 1)
        if self.text(at + 2) != ";":
            return self.closing(at + 2) + 1
        self.scope.children[name] = doc
        if is_public:
            self.scope.public_children.append(name)
        return at + 3

    # ------------------------------------------------------------ types, traits and functions

    def read_named(self, kind, place, doc, is_public, scope=None):
        """Reads an item that has a name; returns it and the place after it."""
        first, at = place
        made = Item(kind, self.text(at + 1), scope or self.scope, (first, at), doc, is_public)
        readers = {"fn": self.read_fn, "struct": self.read_struct, "enum": self.read_enum, "trait": self.read_trait}
        end = readers.get(kind, self.read_plain)(made, at + 2)
        made.last = end
        return made, end

    def head_end(self, at):
        """The place after a head: that of the first clause, body or semicolon."""
        while self.tokens[at].kind == "Code" and self.text(at) not in ("{", ";"):
            at = self.closing(at) + 1 if self.text(at) in "([" else at + 1
        return at

    def read_fn(self, made, at):
        end = self.head_end(at)
        made.head = (made.first, end)
        made.parameters = self.parameters(at, end)
        while self.tokens[end].kind == "Head":
            clause, end = self.read_ghost(end)
            made.clauses.append(clause)
        return self.closing(end) + 1 if self.text(end) == "{" else end + 1

    def read_ghost(self, at):
        """Reads a clause or a ghost item; returns it and the place after it."""
        begin = at
        while self.text(at) != "{" or self.tokens[at].kind != "Head":
            at += 1
        words, first = [it.text for it in self.tokens[begin:at]], at + 1
        while self.tokens[at].kind != "End":
            at += 1
        return Clause(words, (first, at)), at + 1

    def parameters(self, at, end):
        """The names of a function's parameters and of its type parameters."""
        found = {it for it in ("self",) if it in self.words(at, end)}
        if self.text(at) == "<":
            close = surface.closing(self.words(0, end), at)
            found |= {it[0] for it in surface.split(self.words(at + 1, close), ",")}
            at = close + 1
        for part in surface.split(self.words(at + 1, self.closing(at)), ","):
            if ":" in part:
                found.add(part[part.index(":") - 1])
        return found

    def words(self, first, last):
        return [it.text for it in self.tokens[first:last]]

    def generics(self, at):
        """The type parameters from this place on, and the place after them."""
        if self.text(at) != "<":
            return set(), at
        end = surface.closing([it.text for it in self.tokens[:at + 400]], at)
        return {it[0] for it in surface.split(self.words(at + 1, end), ",") if it}, end + 1

    def read_struct(self, made, at):
        made.parameters, at = self.generics(at)
        while self.text(at) not in ("{", "(", ";"):
            at += 1
        made.head = (made.first, at)
        if self.text(at) == ";":
            return at + 1
        end = self.closing(at)
        self.read_fields(made, at, end)
        made.head = (made.first, end + 1) if self.text(at) == "(" else made.head
        return end + 1 + (self.text(end + 1) == ";")

    def read_fields(self, made, at, end):
        """The fields between two brackets."""
        number = 0
        is_tuple, at = self.text(at) == "(", at + 1
        while at < end:
            if self.tokens[at].kind == "Head":
                clause, at = self.read_ghost(at)
                made.ghosts.append(clause)
                at += self.text(at) in (",", ";")
                continue
            begin = at
            _, at = self.attributes(at)
            first = at
            is_public, at = self.visibility(at)
            stop = self.end_of_part(at, end)
            name = str(number) if is_tuple else self.text(at)
            if made.kind == "variant":
                is_public = True
            field = Item("field", name, made.scope, (first, stop), self.doc(begin), is_public)
            field.owner = made
            made.members.append(field)
            number += 1
            at = stop + 1

    def end_of_part(self, at, end):
        """The place of the comma that ends what is at this place, or of the bracket."""
        depth = 0
        while at < end:
            word = self.text(at)
            if self.tokens[at].kind == "Code":
                depth += (word in "([{<") - (word in ")]}>")
                if word == "," and depth == 0:
                    return at
            at += 1
        return end

    def read_enum(self, made, at):
        made.parameters, at = self.generics(at)
        while self.text(at) != "{":
            at += 1
        made.head = (made.first, at)
        end = self.closing(at)
        at += 1
        while at < end:
            begin = at
            _, at = self.attributes(at)
            stop = self.end_of_part(at, end)
            variant = Item("variant", self.text(at), made.scope, (at, stop), self.doc(begin), True)
            variant.owner = made
            if self.text(at + 1) in ("(", "{"):
                self.read_fields(variant, at + 1, self.closing(at + 1))
            made.members.append(variant)
            at = stop + 1
        return end + 1

    def read_plain(self, made, at):
        made.parameters, _ = self.generics(at)
        end = at
        while not (self.text(end) == ";" and self.tokens[end].kind == "Code"):
            end = self.closing(end) + 1 if self.text(end) in "([{" and self.tokens[end].kind == "Code" else end + 1
        made.head = (made.first, end)
        return end + 1

    def read_trait(self, made, at):
        made.parameters, place = self.generics(at)
        made.parameters |= {"Self"}
        while self.text(place) != "{":
            place += 1
        made.head = (made.first, place)
        end = self.closing(place)
        self.read_block(made, place + 1, end)
        return end + 1

    def read_impl(self, at):
        parameters, place = self.generics(at + 1)
        begin = place
        while self.text(place) != "{":
            place += 1
        words = self.words(begin, place)
        made = Item("impl", "", self.scope, (at, place), "", True)
        made.parameters = parameters | {"Self"}
        split = words.index("for") if "for" in words else None
        made.trait = words[:split] if split is not None else None
        made.self_type = words[split + 1:] if split is not None else words
        end = self.closing(place)
        self.read_block(made, place + 1, end)
        made.last = end + 1
        self.scope.impls.append(made)
        return end + 1

    def read_block(self, made, at, end):
        """What is in a trait or an impl."""
        ghosts = Imports()
        made.scope = self.scope.inside(ghosts)
        while at < end:
            begin = at
            _, at = self.attributes(at)
            if self.text(at) == "ghost" and self.text(at + 1) == "use":
                at = self.read_ghost_use(at + 1, ghosts)
                made.scope.ghosts.copy_of(ghosts)
                continue
            if self.tokens[at].kind == "Head":
                clause, at = self.read_ghost(at)
                clause.doc = self.source.comment(begin, "//")
                made.ghosts.append(clause)
                at += self.text(at) == ";"
                continue
            first = at
            is_public, at = self.visibility(at)
            while self.text(at) in BEFORE and self.text(at + 1) in ("fn", *BEFORE):
                at += 1
            if self.text(at) not in KINDS:
                at = self.semicolon(at) + 1
                continue
            is_public = is_public or made.kind == "trait"
            method, at = self.read_named(self.text(at), (first, at), self.doc(begin), is_public, made.scope)
            method.owner = made
            made.members.append(method)


class Crates:
    """The modules of the repository's crates, by crate and path."""

    def __init__(self):
        self.scopes = {}

    def scope(self, crate, path=()):
        """The module of a crate at this path, or None."""
        key = (crate, tuple(path))
        if key not in self.scopes:
            self.scopes[key] = None
            file = self.file_of(crate, path)
            if file:
                self.scopes[key] = Scope(crate, tuple(path), file)
        return self.scopes[key]

    def file_of(self, crate, path):
        folder = f"{ROOT}/crates/{crate}/src"
        if not path:
            return next((it for it in (f"{folder}/lib.rt", f"{folder}/main.rt") if is_file(it)), None)
        base = "/".join([folder, *path])
        return next((it for it in (f"{base}.rt", f"{base}/mod.rt") if is_file(it)), None)

    def with_impls(self, crate, names):
        """The modules of a crate that may have an impl for a type, or of a trait, with one of these names."""
        pattern = re.compile(rf"^\s*(?:unsafe )?impl\b[^{{]*\b(?:{'|'.join(sorted(names))})\b", re.M)
        folder = f"{ROOT}/crates/{crate}/src"
        for file in sorted(glob.glob(f"{folder}/**/*.rt", recursive=True)):
            with open(file, encoding="utf-8") as it:
                if pattern.search(it.read()):
                    path = re.sub(r"(^|/)(lib|main|mod)$", "", os.path.relpath(file, folder)[:-3])
                    yield self.scope(crate, tuple(it for it in path.split("/") if it))

    def is_crate(self, name):
        return os.path.isdir(f"{ROOT}/crates/{name}")

    def resolve(self, scope, path, seen=()):
        """What a path in a module means: modules (Scope) and items, as a list."""
        if not path or (id(scope), tuple(path)) in seen:
            return []
        seen = (*seen, (id(scope), tuple(path)))
        head, rest = path[0], path[1:]
        if head == "crate":
            return self.below([self.scope(scope.crate)], rest, seen)
        if head == "self":
            return self.below([scope], rest, seen)
        if head == "super":
            return self.below([self.scope(scope.crate, scope.path[:-1])], rest, seen)
        found = self.named(scope, head, seen)
        if not found and self.is_crate(head):
            found = [self.scope(head)]
        return self.below(found, rest, seen)

    def below(self, found, path, seen):
        """What a path means from modules and items on."""
        for name in path:
            found = [below for it in found for below in self.member(it, name, seen)]
        return [it for it in found if it is not None]

    def member(self, what, name, seen):
        if isinstance(what, Scope):
            return self.named(what, name, seen)
        return [it for it in what.members if it.name == name] if what else []

    def named(self, scope, name, seen):
        """What a name means in a module: its items, its modules and what it imports."""
        found = [*scope.items.get(name, [])]
        if name in scope.children:
            found.append(self.scope(scope.crate, (*scope.path, name)))
        if name in scope.uses and not found:
            found += self.resolve(scope if scope.uses[name][0] != name else Outside, scope.uses[name], seen)
        return found


class Outside:
    """Where no module is: paths begin with a crate."""
    crate, path = None, ()
    items, children, uses = {}, {}, {}
