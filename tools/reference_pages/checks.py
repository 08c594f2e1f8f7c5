"""What a reference has to have: a page and a comment for each public item, a definition for each name in a clause."""
import re

from .items import DERIVED
from .rust import Item, surface


def without_doc(reference):
    """The public modules, items, methods, fields with names and variants that have no doc comment."""
    yield from (f"{'::'.join(it.path)} has no doc comment" for it in reference.modules if not it.doc)
    for item in reference.items:
        shown = [item, *reference.methods(item), *reference.parts(item)]
        shown += [it for part in reference.parts(item) for it in part.members]
        for it in shown:
            is_tuple_field = it.kind == "field" and it.name.isdigit()
            if not it.doc and not reference.shown(it).doc and not is_tuple_field:
                yield f"{item.path}: {it.name} has no doc comment"


def without_definition(reference):
    """The names in clauses, and in the definitions that they name, that nothing defines."""
    for owner, clause in reference.clauses:
        for word in clause.unknown:
            yield f"{place(reference, owner)}: the clause {' '.join(clause.words)} names {word}, which nothing defines"
    for it in reference.definitions:
        for word in it.unknown if it.module.file.startswith(surface.ROOT) else ():
            yield f"{it} names {word}, which nothing defines"


def place(reference, item):
    above = getattr(item.owner, "of", item.owner)
    return f"{above.path}: {item.name}" if above is not None else item.path or " ".join(item.words())


class Listed:
    """The lines of docs/SURFACE.txt, each compared with what has a page."""

    def __init__(self, reference):
        self.reference = reference
        self.lines = [it for it in surface.listed() if not it.startswith("=")]
        self.lines = [it for it in self.lines if re.match(r"(impl )?(cfgrammar|lexcheck|cfglint)::", it)]

    def item_at(self, path):
        """The public item of a path, or None."""
        found = self.reference.by_path.get(tuple(path.split("::")))
        return found if isinstance(found, Item) else None

    def has(self, line):
        """Whether what a line says is on a page."""
        line = line[5:] if line.startswith("impl ") else line
        path, colon, trait = line.partition(": ")
        if colon:
            return self.has_trait(self.item_at(path), trait)
        path, dot, name = line.partition(".")
        if dot:
            return self.has_member(path, name)
        above, _, last = path.rpartition("::")
        return self.item_at(path) is not None or self.has_part(self.item_at(above), last)

    def traits(self, item):
        """The traits that a type has, by their last names."""
        shown = self.reference.shown(item)
        target = item.target or item
        found = {*shown.derives, *target.derives}
        for it in [impl for one in dict.fromkeys([item, target]) for impl in self.reference.trait_impls(one)]:
            found.add([word for word in without_arguments(it.trait) if re.match(r"\w", word)][-1])
        return found

    def has_trait(self, item, trait):
        return item is not None and trait in self.traits(item)

    def has_part(self, item, name):
        """Whether a type has a variant, or a function that is no method, of this name."""
        if item is None:
            return False
        target = item.target or item
        found = [it for one in {item, target} for it in self.reference.parts(one) + self.reference.methods(one)]
        found += [it for one in {item, target} for impl in self.reference.trait_impls(one) for it in impl.members]
        return name in {it.name for it in found}

    def has_member(self, path, name):
        """Whether a type, or a variant, has a method or a field of this name."""
        item, called = self.item_at(path), name.endswith("()")
        above, _, last = path.rpartition("::")
        if item is None and self.item_at(above):
            variants = [it for it in self.reference.parts(self.item_at(above)) if it.name == last]
            return any(it.name == name for variant in variants for it in variant.members)
        if item is None:
            return False
        name = name[:-2] if called else name
        return self.has_part(item, name) or called and DERIVED.get(name) in self.traits(item)

    def without_page(self):
        """The lines for which there is no page."""
        for line in self.lines:
            if not self.has(line):
                yield f"docs/SURFACE.txt: {line} has no page"

    def public(self):
        """Each public item, call and part, as the lines that would name it, by its own path first."""
        for item in self.reference.items:
            paths = [item.path, *item.other_paths]
            if "::laws::" in item.path or not item.path.startswith(("cfgrammar::", "lexcheck::")):
                continue
            yield paths
            for it in self.reference.methods(item) + self.reference.parts(item):
                is_method = it.kind == "fn" and "self" in it.parameters
                mark, end = "." if is_method or it.kind == "field" else "::", "()" if is_method else ""
                yield [f"{path}{mark}{it.name}{end}" for path in paths]

    def differing(self):
        """The public items that no line names, and the lines for other crates that name none."""
        others = set(re.findall(r"^#   (\S+)$", surface.text_of(surface.LIST), re.M))
        lines, unlisted = {*self.lines}, []
        for names in self.public():
            unlisted += [] if lines & {*names} else [names[0]]
        yield from (f"docs/SURFACE.txt: no line names {it}" for it in unlisted if it not in others)
        yield from (f"docs/SURFACE.txt: {it} isn't public only for other crates" for it in sorted(others - {*unlisted}))


def without_arguments(words):
    """The words of a path without its type arguments."""
    return words[:words.index("<")] if "<" in words else words


def broken(reference):
    """What a reference is missing."""
    listed = Listed(reference)
    return [*without_doc(reference), *without_definition(reference), *listed.without_page(), *listed.differing()]
