"""The front door: each public item by the paths that users write, and what belongs to it."""
import glob
import re

from modules.programs import ROOT

from .antt import Library, is_among
from .names import Walk, closure, names_of
from .rust import Crates, Item, Scope, surface
from .sources import read

ROOTS = ("cfgrammar", "cfglint", "lexcheck")
# what a derived trait's calls are named
DERIVED = {"clone": "Clone", "eq": "PartialEq", "hash": "Hash", "cmp": "Ord", "partial_cmp": "PartialOrd"}
PRELUDE = ("Some", "None", "Ok", "Err")
NUMBERS = ("u8", "u16", "u32", "u64", "u128", "usize", "i64", "i128", "isize")


class KitType:
    """A type of the kit, which clauses name as the toolchain declares it; or one of its variants."""

    def __init__(self, path, name):
        self.path, self.name, self.comment = path, name, ""
        self.kind = "variant" if path.endswith(".TheVariants") else "type"
        self.owner, self.cites = None, {}
        parts = [it for it in path.split(".declared.")[-1].split(".") if it not in ("TheVariants", "TheConstants")]
        self.type_name, self.folders, self.crate = parts[-1], parts[:-1], path.split(".")[1]

    @property
    def whole(self):
        return self

    def __repr__(self):
        return f"{self.path}.{self.name}"


class PublicModule:
    """A module as users see it."""

    def __init__(self, path, scope, doc):
        self.path, self.scope, self.doc = path, scope, doc
        self.modules, self.items = [], []
        self.page = None


class Reference:
    """All that has a page."""

    def __init__(self, with_kit):
        self.crates = Crates()
        self.library = Library(self.declared, with_kit)
        self.modules, self.items, self.by_path, self.homes = [], [], {}, {}
        self.kit_types = {}
        for folder in ("src", "specs"):
            read(sorted(glob.glob(f"{ROOT}/crates/*/{folder}/**/*.*t", recursive=True)))
        for name in ROOTS:
            self.visit((name,), self.crates.scope(name), "")
        self.attach()
        self.clauses = [it for item in self.items for it in self.clauses_of(item)]
        self.read_clauses()

    # ------------------------------------------------------------ the walk from the roots

    def visit(self, path, scope, doc):
        """Adds a module and all that is public in it."""
        if not scope or path in self.by_path:
            return None
        made = PublicModule(path, scope, scope.doc or doc)
        self.modules.append(made)
        self.by_path[path] = made
        for name, items in scope.items.items():
            for it in items:
                if it.is_public and it.name == name:
                    self.add(made, (*path, name), it)
        for name in scope.public_children:
            self.enter(made, name, self.crates.scope(scope.crate, (*scope.path, name)), scope.children[name])
        for name, words in scope.passed.items():
            for it in self.crates.resolve(scope, [name] if name != words[0] or len(words) > 1 else words):
                if isinstance(it, Scope):
                    self.enter(made, name, it, "")
                else:
                    self.add(made, (*path, name), it)
        return made

    def enter(self, above, name, scope, doc):
        path = (*above.path, name)
        made = self.visit(path, scope, doc)
        if made:
            above.modules.append(made)

    def add(self, module, path, item):
        """Adds an item under a path; the shortest path is its own."""
        module.items.append((path[-1], item))
        self.by_path.setdefault(path, item)
        if item not in self.homes:
            self.homes[item] = []
            self.items.append(item)
        if path not in self.homes[item]:
            self.homes[item].append(path)
        paths = sorted(self.homes[item], key=len)
        item.path, item.other_paths = "::".join(paths[0]), ["::".join(it) for it in paths[1:]]

    # ------------------------------------------------------------ what belongs to a type

    def attach(self):
        """Gives types their methods and impls, and aliases what they mean."""
        for it in self.items:
            if it.kind == "type":
                self.read_alias(it)
        self.owners = {it: it for it in self.items}
        self.owners.update({it.target: it for it in self.items if it.target and it.target not in self.owners})
        names = {it.name for it in self.owners}
        for crate in dict.fromkeys([it.scope.crate for it in self.owners] + list(ROOTS)):
            for scope in self.crates.with_impls(crate, names):
                for impl in scope.impls:
                    self.attach_impl(scope, impl)

    def read_alias(self, item):
        parts = surface.split(item.words(), "=")
        if len(parts) > 1:
            found = self.crates.resolve(item.scope, path_in(parts[-1]))
            item.target = next((it for it in found if isinstance(it, Item)), None)

    def attach_impl(self, scope, impl):
        """Gives an impl to its type, and to its trait if this is public."""
        for it in self.crates.resolve(scope, path_in(impl.self_type)):
            owner = self.owners.get(it) if isinstance(it, Item) else None
            if owner:
                owner.impls.append(impl)
                impl.of = owner
        for it in self.crates.resolve(scope, path_in(impl.trait)) if impl.trait else []:
            if it in self.owners:
                it.implemented.append(impl)

    def shown(self, item):
        """The item whose parts and doc comment a page shows: of an alias of what isn't public, the target."""
        return item.target if item.target and self.owners.get(item.target) is item else item

    def methods(self, item):
        """The public methods of a type, those first that make one; or of a trait, in the order of the sources."""
        if item.kind == "trait":
            return item.members
        own = [it for impl in item.impls if not impl.trait for it in impl.members if it.is_public]
        return sorted(own, key=lambda it: "self" in it.parameters)

    def parts(self, item):
        """The public fields, or the variants, of a type."""
        return [it for it in self.shown(item).members if it.is_public and it.kind in ("field", "variant")]

    def trait_impls(self, item):
        return [it for it in item.impls if it.trait]

    def clauses_of(self, item):
        """The clauses and ghost items of an item and of what belongs to it."""
        shown = self.shown(item)
        groups = [(shown, shown.clauses + shown.ghosts)]
        groups += [(it, it.clauses) for it in self.methods(item)]
        for impl in self.trait_impls(item) + item.implemented:
            groups.append((impl, impl.ghosts))
            groups += [(it, it.clauses) for it in impl.members]
        return [(owner, it) for owner, clauses in groups for it in clauses]

    # ------------------------------------------------------------ what clauses cite

    def declared(self, path, name):
        """What the toolchain declares of Rust's types: a type, a variant or a constant."""
        crate, parts = path.split(".")[1], re.split(r"\.(?:declared|contracts)\.", path)[-1].split(".")
        if not self.crates.is_crate(crate):
            return self.kit_types.setdefault((path, name), KitType(path, name))
        made = parts[-1] if parts[-1] in ("TheVariants", "TheConstants") else None
        parts = [it for it in parts if not it.startswith("The") and it != "Laws"]
        for count in range(len(parts), -1, -1):
            scope = self.crates.scope(crate, parts[:count])
            if scope:
                rest = [*parts[count:], name] if made else parts[count:] or [name]
                # what the toolchain makes of an impl has the name of the type, and then of the trait
                rest[0] = max((it for it in scope.items if rest[0].startswith(it)), key=len, default=rest[0])
                found = [it for it in self.crates.below([scope], rest, ()) if isinstance(it, Item)]
                return found[0] if found else None
        return None

    def read_clauses(self):
        """Finds what each clause cites, and all definitions that these are made of."""
        names = {}
        self.library.prepare({path for owner, clause in self.clauses for path in self.sought(owner, clause)})
        for owner, clause in self.clauses:
            scope = owner.scope
            key = id(scope.ghosts)
            if key not in names:
                names[key] = names_of(self.library, scope.ghosts, {})
            self.read_clause(owner, clause, names[key])
        cited = [it for _, clause in self.clauses for it in clause.cites.values()]
        self.definitions = closure(self.library, cited)

    def sought(self, owner, clause):
        """The modules from which a clause's words come."""
        words = {it.text for it in owner.source.tokens[clause.first:clause.last]}
        words |= {it.split(".")[0] for it in words}
        for name, (path, _) in owner.scope.ghosts.names.items():
            if is_among(name, words):
                yield path

    def read_clause(self, owner, clause, names):
        above = owner.owner
        local = {"result", "self", "Self", *owner.parameters, *(above.parameters if above else ())}
        local |= {it.name for it in (above.ghosts if above else owner.ghosts)}
        local |= {it.name for it in owner.members if it.kind == "field"}
        local = {it for it in local if not it.startswith("'")}
        walk = Walk(owner.source.tokens, names, local)
        walk.walk(clause.first, clause.last, local)
        clause.cites = walk.cites
        clause.unknown = [self.tokens_at(owner, it) for it in walk.unknown if not self.is_rust(owner, clause, it)]

    def tokens_at(self, owner, at):
        return owner.source.tokens[at].text

    def is_rust(self, owner, clause, at):
        """Whether a name of a clause is one of Rust's: of a type in scope, of the prelude or of a number."""
        words = self.tokens_at(owner, at).split(".")
        if words[0] in PRELUDE:
            clause.cites[at] = self.library.find("Rattle.std.specs.Prelude", words[0])
        elif words[0] not in NUMBERS:
            found = self.crates.resolve(owner.scope, words) or self.crates.resolve(owner.scope, words[:1])
            if found:
                clause.cites[at] = found[0]
            return bool(found)
        return True

    def page_of(self, what):
        """The public item on whose page something is, or None."""
        item = what.owner if isinstance(what, Item) and what.kind in ("variant", "field") else what
        while isinstance(item, Item) and item.kind in ("variant", "field"):
            item = item.owner
        return self.owners.get(item)


def path_in(words):
    """The path with which a type begins, without references and lifetimes."""
    words = [it for it in words if it not in ("&", "mut", "dyn") and not it.startswith("'")]
    path, at = [], 0
    while at < len(words) and re.match(r"\w", words[at]):
        path.append(words[at])
        at += 1
        if words[at:at + 1] != ["::"]:
            break
        at += 1
    return path
