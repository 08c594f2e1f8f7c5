"""Files of definitions: what each defines, imports and passes on."""
import json
import os
import re

from modules.programs import ROOT
from .sources import KIT, is_file, read, source

MARKS = {"pub", "abbrev", "unfoldable", "pattern"}
NO_DECLARATION = {"infix", "infixl", "infixr", "unfolding"}
# what the toolchain makes from Rattle's code, and what is part of the logic
MADE = re.compile(r"\.(declared|contracts)\.|^Prim\b")
FOLLOWED = ("Rattle.", "mathlib.", "lib.", "native.")
OPEN, CLOSE = ("(", "{", "["), (")", "}", "]")
NAME = re.compile(r"^[^\s(){}.;,@\"|=:→×↦\d][^\s(){}.;,@\"]*$")


class Definition:
    """A definition, a constructor or a field: its tokens from `first` up to `last`, and what it is part of."""

    def __init__(self, module, name, kind, span, comment, owner=None):
        self.module, self.name, self.kind, self.comment, self.owner = module, name, kind, comment, owner
        self.first, self.last = span
        is_open = kind != "definition" or module.source.tokens[span[0]].text in ("abbrev", "unfoldable")
        # the bodies of proofs, and of what the kit keeps shut, are no part of what a definition says; neither is what
        # the program logic is made of
        is_ours = module.file.startswith(f"{ROOT}/") and "/specs/" in module.file
        self.is_open = (is_open or is_ours) and module.path.startswith(FOLLOWED)
        self.parameters, self.members, self.cites, self.unknown = [], [], {}, []

    @property
    def whole(self):
        """The definition that this is part of, or itself."""
        return self.owner or self

    def text(self):
        tokens = self.module.source.tokens
        return self.module.source.text(tokens[self.first].start, tokens[self.last - 1].end)

    def __repr__(self):
        return f"{self.module.path}.{self.name}"


class Imports:
    """What `use` items bring: names with the module and the name there, and modules by their short names."""

    def __init__(self):
        self.names, self.modules, self.passed, self.passed_modules = {}, {}, {}, {}

    def add(self, words, is_public=False):
        """Adds what a `use` has after the word: a path, and names in braces or another name of the module."""
        path, rest = words[0], words[1:]
        if rest[:1] == ["."]:
            for part in split(rest[2:-1]):
                self.names[part[-1]] = (path, part[0])
                if is_public:
                    self.passed[part[-1]] = (path, part[0])
        elif path.startswith("Prim.") and path.rpartition(".")[2][0].islower():
            self.names[path.rpartition(".")[2]] = tuple(path.rpartition(".")[::2])
        else:
            name = rest[1] if rest[:1] == ["as"] else path.rpartition(".")[2]
            self.modules[name] = path
            if is_public:
                self.passed_modules[name] = path

    def copy_of(self, other):
        self.names.update(other.names)
        self.modules.update(other.modules)
        return self


def split(words):
    """The parts between commas."""
    parts = [[]]
    for it in words:
        if it == ",":
            parts.append([])
        else:
            parts[-1].append(it)
    return [it for it in parts if it]


def closing(tokens, at):
    """The place of the token that closes the bracket at this place."""
    depth = 0
    for place in range(at, len(tokens)):
        if tokens[place].kind == "Antt":
            depth += (tokens[place].text in OPEN) - (tokens[place].text in CLOSE)
            if depth == 0:
                return place
    raise SystemExit(f"reference: nothing closes {tokens[at]}")


class Module:
    """A file of definitions."""

    def __init__(self, path, file):
        self.path, self.file, self.source = path, file, source(file)
        self.imports, self.definitions, self.named = Imports(), [], {}
        self.read_block(0, len(self.source.tokens), [])
        self.comment = self.source.head_comment("--")

    def read_block(self, first, last, parameters):
        """Reads the statements of a block, where these parameters are known."""
        tokens, current = self.source.tokens, None
        for begin, end in self.source.statements(first, last):
            words = [it.text for it in tokens[begin:min(begin + 6, end)]]
            rest = [it for it in words if it not in MARKS]
            if rest[0] in ("use", "mod"):
                if rest[0] == "use":
                    at = begin + words.index("use") + 1
                    self.imports.add([it.text for it in tokens[at:end]], words[0] in MARKS)
            elif rest[0] in ("module", "mutual"):
                where = [it for it in range(begin, end) if tokens[it].text == "where" and rest[0] == "module"]
                self.read_block((where or [begin])[0] + 1, end, parameters + [(begin + 2, it) for it in where[:1]])
            elif rest[0] in NO_DECLARATION:
                if current and rest[0] == "unfolding":
                    current.last = end
            else:
                current = self.read_declaration(begin, end, parameters, current)

    def read_declaration(self, begin, end, parameters, current):
        """Reads a signature, a record, a data type or a ruleset; another statement is an equation of the current
        definition."""
        tokens = self.source.tokens
        at = begin
        while tokens[at].text in MARKS:
            at += 1
        kind = tokens[at].text if tokens[at].text in ("record", "data", "ruleset") else "definition"
        at += kind != "definition"
        name = tokens[at].text
        if kind == "definition" and not self.is_signature(at, end):
            if current:
                current.last = end
            return current
        made = Definition(self, name, kind, (begin, end), self.source.comment(begin, "--"))
        made.parameters = parameters
        self.definitions.append(made)
        self.named[name] = made
        if kind in ("record", "data"):
            self.read_members(made, at, end)
        return made

    def is_signature(self, at, end):
        """Whether a name and perhaps levels are followed by a colon."""
        tokens = self.source.tokens
        if at + 1 < end and tokens[at + 1].text == "{":
            at = closing(tokens, at + 1)
        return at + 1 < end and tokens[at + 1].text == ":"

    def read_members(self, made, at, end):
        """Reads the constructors of a data type, or the fields of a record."""
        tokens = self.source.tokens
        where = next((it for it in range(at, end) if tokens[it].text == "where"), end)
        for begin, last in self.source.statements(where + 1, end):
            place = begin + (tokens[begin].text == "pub")
            if tokens[begin].text == "deriving":
                self.named.setdefault(tokens[last - 1].text, made)
                continue
            kind = "constructor" if made.kind == "data" else "field"
            while place < last and tokens[place].text != ":":
                comment = self.source.comment(begin, "--")
                member = Definition(self, tokens[place].text, kind, (begin, last), comment, made)
                made.members.append(member)
                place += 1
                if kind == "constructor":
                    self.named.setdefault(member.name, member)

    def sought(self):
        """The modules from which the words of this one come."""
        words = {it.text for it in self.source.tokens}
        words |= {it.split(".")[0] for it in words if "." in it}
        return {path for name, (path, _) in self.imports.names.items() if is_among(name, words)}

    def find(self, name):
        """What a name of this module means to others: its definition, or the path and the name that it passes on."""
        return self.named.get(name) or self.imports.passed.get(name)


def is_among(name, words):
    """Whether one of these words is a name, or a part of an operator."""
    return name in words or "◌" in name and bool(words & set(name.split("◌")))


class Builtin:
    """A name that is part of the logic itself."""

    def __init__(self, path, name):
        self.path, self.name, self.kind, self.comment = path, name, "built in", ""
        self.owner, self.cites = None, {}

    @property
    def whole(self):
        return self

    def __repr__(self):
        return f"{self.path}.{self.name}"


class Library:
    """All modules, by their paths."""

    def __init__(self, declared, with_kit):
        self.declared, self.with_kit = declared, with_kit
        self.modules, self.builtins, self.found = {}, {}, {}
        with open(f"{KIT}/rattle/logic/antt-project.json", encoding="utf-8") as it:
            self.mounts = {name: f"{KIT}/rattle/logic/{folder}" for name, folder in json.load(it)["mounts"].items()}

    def file_of(self, path):
        """The file in which a module would be."""
        parts = path.split(".")
        if parts[0] == "Rattle" and len(parts) > 2:
            home = f"{ROOT}/crates/{parts[1]}"
            home = home if os.path.isdir(home) else f"{KIT}/rattle/{parts[1]}"
            return "/".join([home, parts[2], *(parts[3:] or ["Lib"])]) + ".antt"
        folder = self.mounts.get(parts[0])
        if not folder:
            return None
        folder = f"{folder}/src" if os.path.isdir(f"{folder}/src") else folder
        return "/".join([folder, *(parts[1:] or ["Lib"])]) + ".antt"

    def is_ours(self, path):
        """Whether a module is in the repository."""
        return path.startswith("Rattle.") and os.path.isdir(f"{ROOT}/crates/{path.split('.')[1]}")

    def place_of(self, path):
        """The path under which a module's file is: itself, or what a module above passes on under it."""
        if MADE.search(path):
            return path
        file = self.file_of(path)
        if file and is_file(file):
            return path
        above, _, name = path.rpartition(".")
        place = self.place_of(above) if above.count(".") > 1 or above in self.mounts else None
        if place and place != above:
            return self.place_of(f"{place}.{name}")
        parent = self.module(above) if place else None
        passed = parent.imports.passed_modules.get(name) if parent else None
        return self.place_of(passed) if passed else None

    def module(self, path):
        """The module of this path, if it has a file."""
        if path not in self.modules:
            self.modules[path] = None
            place = self.place_of(path)
            if place == path and not MADE.search(path):
                self.modules[path] = Module(path, self.file_of(path))
            elif place and place != path:
                self.modules[path] = self.module(place)
        return self.modules[path]

    def prepare(self, paths):
        """Reads the files of modules together."""
        files = [self.file_of(it) for it in paths if not MADE.search(it)]
        read([it for it in files if it and is_file(it) and (self.with_kit or it.startswith(f"{ROOT}/"))])

    def find(self, path, name):
        """What a name of a module means, or None."""
        key = (path, name)
        if key not in self.found:
            self.found[key] = None
            self.found[key] = self.search(path, name)
        return self.found[key]

    def search(self, path, name):
        if path.startswith("Prim") or not self.with_kit and not self.is_ours(path):
            return self.builtins.setdefault(name, Builtin(path, name))
        place = self.place_of(path)
        if place and MADE.search(place):
            return self.declared(place, name)
        module = self.module(path)
        found = module.find(name) if module else None
        return self.find(*found) if isinstance(found, tuple) else found
