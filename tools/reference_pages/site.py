"""The pages as a whole: their addresses, their frame, and whether each link leads somewhere."""
import glob
import html
import json
import os
import re
from urllib.parse import quote, unquote

from modules.programs import ROOT

from .antt import Builtin, Definition
from .items import KitType, PublicModule
from .markdown import escape, first_sentence, plain
from .rust import Item
from .sources import KIT

HERE = os.path.dirname(os.path.realpath(__file__))
FRAME = """<!DOCTYPE html>
<html lang="en" data-root="{root}">
<head>
<meta charset="utf-8">
<meta name="viewport" content="width=device-width, initial-scale=1">
<title>{title}</title>
<link rel="icon" href="data:,">
<link rel="stylesheet" href="{root}style.css">
</head>
<body>
<header class="top">
<a class="brand" href="{root}index.html">cfgrammar</a>
<div class="search">
<input type="search" placeholder="Search names and comments ( / )" aria-label="Search" autocomplete="off">
<ul class="results" hidden></ul></div>
</header>
<div class="layout">
<nav class="side"><details open><summary>Contents</summary>
{side}
</details></nav>
<main>
{body}
<footer>Made from the sources by tools/reference. The merge gate proves every clause on these pages.</footer>
</main>
</div>
<script src="{root}entries.js"></script>
<script src="{root}search.js"></script>
</body>
</html>
"""


class Page:
    """A page that is being made: its file, and links from it."""

    def __init__(self, site, file):
        self.site, self.file = site, file
        self.root = "../" * file.count("/")

    def href(self, what):
        """The address of something from this page, or None if it has none."""
        address = self.site.address(what)
        return address and self.local(address)

    def local(self, address):
        file, _, mark = address.partition("#")
        return f"#{mark}" if file == self.file and mark else self.root + address

    def link(self, what, text=None, title=""):
        """A link to something, in code."""
        name = escape(text or what.name)
        title = f' title="{escape(title)}"' if title else ""
        address = self.href(what)
        return f'<a href="{escape(address)}"{title}><code>{name}</code></a>' if address else f"<code>{name}</code>"

    def write(self, title, body, side):
        made = FRAME.format(root=self.root, title=escape(title), body=body, side=side)
        self.site.write(self.file, made)


class Site:
    """All pages of a reference."""

    def __init__(self, reference, folder):
        self.reference, self.folder = reference, folder
        self.files, self.entries, self.broken = {}, [], []
        self.private_types, self.kit_types, self.builtins = {}, {}, {}
        self.anchors, self.ghosts_of_std = {}, {}
        for item in reference.items:
            self.name_parts(item)

    # ------------------------------------------------------------ addresses

    def name_parts(self, item):
        """Gives the methods, the variants and the fields of an item their places on its page."""
        taken = set()
        for it in [*self.reference.methods(item), *self.reference.parts(item)]:
            place = it.name if it.name not in taken else f"{it.kind}.{it.name}"
            taken.add(place)
            self.anchors[it] = f"{self.file_of(item)}#{place}"

    def file_of(self, item):
        """The file of an item's page, or of a module's."""
        if isinstance(item, PublicModule):
            return "/".join(item.path) + "/index.html"
        return item.path.replace("::", "/") + ".html"

    def definitions_file(self, module):
        path = re.sub(r"^Rattle\.", "", module.path).replace(".specs.", ".").replace(".proofs.", ".proofs.")
        return f"definitions/{path}.html"

    def address(self, what):
        """The address of something from the top, or None."""
        if isinstance(what, Definition):
            mark = what.name if what.owner is None else f"{what.owner.name}.{what.name}"
            return f"{self.definitions_file(what.module)}#{quote(mark)}"
        if isinstance(what, Builtin):
            self.builtins[what.name] = what
            return f"definitions/built-in.html#{quote(what.name)}"
        if isinstance(what, KitType):
            self.kit_types.setdefault(what.type_name, what)
            return f"definitions/types-of-std.html#{quote(what.type_name)}"
        if isinstance(what, PublicModule):
            return self.file_of(what)
        return self.address_of_item(what) if isinstance(what, Item) else None

    def address_of_item(self, item):
        if item in self.anchors:
            return self.anchors[item]
        owner = self.reference.page_of(item)
        if owner:
            return self.file_of(owner) + (f"#{item.name}" if item.kind in ("variant", "field") else "")
        whole = item
        while whole.owner is not None:
            whole = whole.owner
        if whole.kind not in ("struct", "enum", "trait", "type", "const"):
            return None
        self.private_types[whole] = f"definitions/types-of-{whole.scope.crate}.html"
        return f"{self.private_types[whole]}#{whole.name}"

    def ghost_of_std(self, name):
        """The address of a ghost item, if just one trait of the kit's core has one of this name."""
        if not self.ghosts_of_std:
            for file in sorted(glob.glob(f"{KIT}/rattle/core/src/**/*.rt", recursive=True)):
                with open(file, encoding="utf-8") as it:
                    for trait, body in re.findall(r"^pub trait (\w+)(.*?)^}", it.read(), re.M | re.S):
                        for ghost in re.findall(r"^    ghost (\w+): ", body, re.M):
                            self.ghosts_of_std.setdefault(ghost, set()).add(trait)
        traits = [*self.ghosts_of_std.get(name, ())]
        if len(traits) != 1:
            return None
        self.kit_types.setdefault(traits[0], KitType(f"Rattle.core.specs.declared.{traits[0]}", traits[0]))
        return f"definitions/types-of-std.html#{traits[0]}.{name}"

    def says(self, what):
        """The first sentence of what is said of something."""
        if isinstance(what, Item):
            shown = self.reference.shown(what)
            return first_sentence(what.doc or shown.doc)
        comment = getattr(what, "comment", "") or getattr(getattr(what, "whole", None), "comment", "")
        return first_sentence(comment)

    # ------------------------------------------------------------ the search

    def enter(self, name, kind, path, address, text):
        """Adds something to the index of the search."""
        self.entries.append([name, kind, path, address, plain(text)[:400]])

    # ------------------------------------------------------------ files

    def write(self, file, text):
        self.files[file] = text

    def finish(self):
        """Writes all files, if each link leads somewhere."""
        rows = ",\n".join(json.dumps(it, ensure_ascii=False) for it in self.entries)
        self.files["entries.js"] = f"const entries = [\n{rows}\n];\n"
        for name in ("style.css", "search.js"):
            with open(f"{HERE}/{name}", encoding="utf-8") as it:
                self.files[name] = it.read()
        broken = self.broken + sorted(self.broken_links())
        if broken:
            raise SystemExit("\n".join(f"reference: {it}" for it in broken))
        for file, text in self.files.items():
            path = f"{self.folder}/{file}"
            os.makedirs(os.path.dirname(path), exist_ok=True)
            with open(path, "w", encoding="utf-8") as out:
                out.write(text)

    def broken_links(self):
        """The links that lead nowhere, and those that lead out of the pages and ask for something."""
        marks = {file: set(re.findall(r' id="([^"]*)"', html.unescape(text))) for file, text in self.files.items()}
        for file, text in self.files.items():
            for address in set(re.findall(r' (?:href|src)="([^"]*)"', text)) if file.endswith(".html") else ():
                address = html.unescape(address)
                if re.match(r"https?:|data:", address):
                    continue
                path, _, mark = address.partition("#")
                path = os.path.normpath(os.path.join(os.path.dirname(file), unquote(path))) if path else file
                if path not in self.files or mark and unquote(mark) not in marks[path]:
                    yield f"{file}: the link {address} leads nowhere"
        for row in self.entries:
            path, _, mark = row[3].partition("#")
            if path not in self.files or mark and unquote(mark) not in marks[path]:
                yield f"the search's entry {row[0]} leads nowhere: {row[3]}"


def in_repository(definition):
    return definition.module.file.startswith(f"{ROOT}/")
