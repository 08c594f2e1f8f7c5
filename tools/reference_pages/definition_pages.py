"""The pages of definitions: one for each file, the types that users can't name, and what is built in."""
import glob
import re

from . import code
from .antt import Definition
from .markdown import code as html_code
from .markdown import details, escape, first_sentence, heading, items, line, rows
from .rust import Scope
from .site import Page, in_repository
from .sources import KIT, shown

BUILT_IN = {
    "ℕ": "The natural numbers, of any size.",
    "zero": "0.",
    "suc": "One more than a number.",
    "pred": "One less than a number; 0 of 0.",
    "◌+◌": "The sum of two natural numbers.",
    "◌-◌": "The difference of two natural numbers; 0 if the second is larger.",
    "◌*◌": "The product of two natural numbers.",
    "◌/◌": "The quotient of two natural numbers, rounded down.",
    "◌%◌": "The remainder of a division of natural numbers.",
    "◌^◌": "The power of a natural number.",
    "◌<◌": "The first number is less than the second.",
    "◌≤◌": "The first number is at most the second.",
    "min": "The lesser of two numbers.",
    "max": "The greater of two numbers.",
}


class DefinitionPages:
    """Makes the pages of all definitions that are reached."""

    def __init__(self, site, items):
        self.site, self.items, self.reference = site, items, site.reference
        self.by_module, self.cited_by = {}, {}
        for it in self.reference.definitions:
            self.by_module.setdefault(it.module, []).append(it)
        self.reached = set(self.reference.definitions)
        self.find_cited()

    def find_cited(self):
        """Which public items, and which definitions, cite each definition."""
        for owner, clause in self.reference.clauses:
            above = self.place(owner)
            for it in clause.cites.values():
                if above is not None and isinstance(it, Definition):
                    self.cited_by.setdefault(it.whole, {})[above] = None
        for one in self.reference.definitions:
            for it in one.cites.values():
                if isinstance(it, Definition) and it.whole is not one:
                    self.cited_by.setdefault(it.whole, {})[one] = None

    def place(self, owner):
        """What to show for the owner of a clause: a method or an item that has a page."""
        if owner in self.site.anchors or owner in self.reference.owners:
            return self.reference.owners.get(owner, owner)
        return getattr(owner, "of", None) or getattr(getattr(owner, "owner", None), "of", None)

    def title(self, module):
        return re.sub(r"^Rattle\.", "", module.path).replace(".specs.", ".")

    def module(self, module, definitions):
        """Writes the page of a file of definitions."""
        page = Page(self.site, self.site.definitions_file(module))
        definitions = sorted(definitions, key=lambda it: it.first)
        is_ours = in_repository(definitions[0])
        where = f"<code>{escape(shown(module.file))}</code>" + ("" if is_ours else " of the Rattle kit")
        note = '<p class="note">Only what the definitions of this reference use is here.</p>'
        head = f"<p>{line(module.comment)}</p>" if is_ours else note
        made = [f'<p class="path">{where}</p>', heading(self.title(module), "definitions"), head]
        made += [self.definition(page, it) for it in definitions]
        side = items("Definitions", [(page.local(self.site.address(it)), it.name) for it in definitions])
        page.write(f"{self.title(module)}: definitions", "\n".join(made), side)

    def linker(self, page, definition):
        def link(at):
            found = definition.cites.get(at)
            if isinstance(found, Definition) and found.whole not in self.reached or found is None:
                return None
            address = page.href(found)
            return (address, self.site.says(found)) if address else None
        return link

    def definition(self, page, definition):
        """A definition: its comment, its text, and what cites it."""
        mark, address = escape(definition.name), self.site.address(definition)
        is_ours = in_repository(definition)
        kind = "definition" if is_ours else "of the kit"
        self.site.enter(definition.name, kind, self.title(definition.module), address, definition.comment)
        text = code.shown(definition.module.source, definition.first, definition.last, self.linker(page, definition))
        members = "".join(f'<span id="{mark}.{escape(it.name)}"></span>' for it in definition.members)
        comment = f"<p>{line(definition.comment)}</p>" if definition.comment else ""
        title = f'<h3><a class="self" href="{page.local(address)}">{mark}</a></h3>'
        about = self.items.laws_about(page, [definition]) + self.users(page, definition) if is_ours else ""
        return f'<section class="definition" id="{mark}">{title}{members}{comment}{html_code(text)}{about}</section>'

    def users(self, page, definition):
        """What cites a definition of the repository."""
        found = self.cited_by.get(definition, {})
        calls = [it for it in found if not isinstance(it, Definition) and not self.items.is_law(it)]
        above = [it for it in found if isinstance(it, Definition)]
        made = ""
        for title, group in (("Contracts that name it", calls), ("Definitions that name it", above)):
            links = ", ".join(page.link(it, self.items.full_name(it)) for it in group)
            made += details(f"{title} ({len(group)})", f"<p>{links}</p>") if group else ""
        return made

    # ------------------------------------------------------------ types that no path leads to

    def private_types(self):
        """Writes the pages of types that clauses name, and that users can't."""
        by_file = {}
        for it, file in sorted(self.site.private_types.items(), key=lambda it: (it[1], it[0].name)):
            by_file.setdefault(file, []).append(it)
        for file, found in by_file.items():
            page, crate = Page(self.site, file), found[0].scope.crate
            note = '<p class="note">Clauses name these types of the crate; users can\'t.</p>'
            body = [heading(f"Types of {crate}", "definitions"), note, *(self.private_type(page, it) for it in found)]
            page.write(f"Types of {crate}", "\n".join(body), items("Types", [(f"#{it.name}", it.name) for it in found]))

    def private_type(self, page, item):
        text = code.shown(item.source, item.first, item.last, self.items.linker(page, item))
        self.site.enter(item.name, "definition", f"types of {item.scope.crate}", self.site.address(item), item.doc)
        return declared(item.name, f"<p>{line(item.doc)}</p>{html_code(text)}")

    # ------------------------------------------------------------ types of std, and what is built in

    def kit_types(self):
        """Writes the page of the kit's types, as its sources declare them."""
        page = Page(self.site, "definitions/types-of-std.html")
        names = sorted(self.site.kit_types)
        note = '<p class="note">As the sources of the Rattle kit declare them.</p>'
        body = [heading("Types and traits of std", "definitions"), note, *(self.kit_type(self.site.kit_types[it]) for it in names)]
        page.write("Types of std", "\n".join(body), items("Types", [(f"#{it}", it) for it in names]))

    def kit_type(self, it):
        found = self.declaration(it)
        if not found:
            raise SystemExit(f"reference: the kit's sources don't declare {it}")
        file, item = found
        self.site.enter(it.type_name, "of the kit", "types of std", self.site.address(it), item.doc)
        last = item.head[1] if item.kind == "trait" else item.last
        text = code.shown(item.source, item.first, last, lambda at: None)
        ghosts = item.ghosts if item.kind == "trait" else []
        inside = "".join(self.ghost(item, ghost) for ghost in ghosts)
        head = f'<p class="path">{escape(shown(file))}</p><p>{line(first_sentence(item.doc))}</p>'
        return declared(it.type_name, head + html_code(text) + inside)

    def ghost(self, item, ghost):
        """A ghost item of a trait of the kit."""
        text = code.shown(item.source, ghost.first, ghost.last, lambda at: None, hanging=2)
        says = f"<p>{line(ghost.doc)}</p>" if ghost.doc else ""
        name = f'<span class="name">{escape(ghost.name)}</span>'
        mark = f' id="{escape(item.name)}.{escape(ghost.name)}"' if ghost.name.isidentifier() else ""
        return f'<div class="clause"{mark}>{name}{html_code(text)}{says}</div>'

    def declaration(self, it):
        """The file and the item that declare a type of the kit."""
        crates = dict.fromkeys([it.crate, "core", "std_alloc", "std_collections", "std_heap", "std_io", "std"])
        pattern = re.compile(rf"^\s*pub (?:\w+ )*(?:struct|enum|trait|type|union) {it.type_name}\b", re.M)
        folders = [f"{KIT}/rattle/{crate}/src" for crate in crates]
        files = [file for it in folders for file in sorted(glob.glob(f"{it}/**/*.rt", recursive=True))]
        near = [file for file in files if it.folders and re.search(rf"/{it.folders[0]}(/|\.rt)", file)]
        for file in dict.fromkeys(near + files):
            with open(file, encoding="utf-8") as text:
                if pattern.search(text.read()):
                    items = Scope("", (), file).items.get(it.type_name)
                    if items:
                        return file, items[0]
        return None

    def built_in(self):
        """Writes the page of the names that are part of the logic."""
        page = Page(self.site, "definitions/built-in.html")
        made = []
        for name, it in sorted(self.site.builtins.items()):
            says = BUILT_IN.get(name, "A name of the logic.")
            self.site.enter(name, "of the kit", "built in", self.site.address(it), says)
            made.append((f'<span id="{escape(name)}">{escape(name)}</span>', says))
        note = '<p class="note">Names of the logic itself.</p>'
        page.write("Built in", heading("Built in", "definitions") + note + rows(made), "")

    def write(self):
        """Writes all pages of definitions."""
        for module, found in self.by_module.items():
            self.module(module, found)
        self.private_types()
        self.built_in()
        self.kit_types()

    def listed(self, page):
        """The files of definitions, for the index."""
        ours = sorted((it for it in self.by_module if in_repository(self.by_module[it][0])), key=self.title)
        links = [f'<a href="{page.root}{self.site.definitions_file(it)}">{escape(self.title(it))}</a>' for it in ours]
        return rows((link, line(first_sentence(it.comment))) for link, it in zip(links, ours))


def declared(name, body):
    """The declaration of a type."""
    return f'<section class="definition" id="{escape(name)}"><h3>{escape(name)}</h3>{body}</section>'
