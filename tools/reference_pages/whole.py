"""The whole reference: each page, the first one among them."""
from .definition_pages import DefinitionPages
from .guide import GUIDE, examples
from .item_pages import ItemPages
from .markdown import escape, heading
from .markdown import items as beside
from .markdown import line, rendered
from .site import Page, Site

EMPTY_LINE = "\n\n"
WELCOME = """
Each public item of the library `cfgrammar`, of `cfglint` and of `lexcheck` has a page, by the path that users write. A
call's page has its signature, its comment, its errors, and its clauses: what a caller has to show (**requires**) and
what is proved of the result (**ensures**). Each name in a clause leads to its definition, and so on down to those of
std. Press `/` to search."""


def write(reference, folder):
    """Writes all pages to a folder; returns how many there are."""
    site = Site(reference, folder)
    items = ItemPages(site, examples(reference))
    definitions = DefinitionPages(site, items)
    for module in reference.modules:
        items.module(module)
    for item in reference.items:
        items.item(item)
    definitions.write()
    write_index(site, items, definitions)
    site.finish()
    return sum(it.endswith(".html") for it in site.files)


def write_index(site, items, definitions):
    """Writes the first page: the crates with what is in them, the guide's examples, and the files of definitions."""
    page = Page(site, "index.html")
    body = [heading("Reference of cfgrammar", ""), rendered(WELCOME, lambda *_: None), tasks(page, items)]
    marks = []
    for module in site.reference.modules:
        path = escape("::".join(module.path))
        level = 2 if len(module.path) == 1 else 3
        link = f'<a href="{page.href(module)}">{path}</a>'
        body.append(f'<h{level} id="{path}">{link}</h{level}>')
        body.append(f"<p>{line(module.doc.split(EMPTY_LINE)[0])}</p>" + items.listed(page, module, 4))
        marks.append((f"#{path}", path))
    body.append(f'<h2 id="definitions">Definitions</h2><p>What clauses name, by file.</p>{definitions.listed(page)}')
    side = beside("Contents", [("#tasks", "By task"), *marks, ("#definitions", "Definitions")])
    page.write("Reference of cfgrammar", "\n".join(body), side)


def tasks(page, items):
    """What the guide shows how to do, and the calls that it uses for it."""
    rows = {}
    for it in items.examples:
        rows.setdefault(it.heading, {}).update({call: None for call in it.named if call.kind == "fn"})
    links = {heading: ", ".join(page.link(it, items.full_name(it)) for it in calls) for heading, calls in rows.items()}
    made = "".join(f"<tr><td>{escape(heading)}</td><td>{it}</td></tr>" for heading, it in links.items())
    says = f"<p>The examples of <code>{GUIDE}</code> are on the pages of these calls.</p>"
    return f'<h2 id="tasks">By task</h2>{says}<div class="wide"><table>{made}</table></div>'
