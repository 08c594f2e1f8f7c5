"""The pages of modules and of items: their signatures, doc comments, clauses, laws and examples."""
from . import code
from .antt import Definition
from .markdown import code as html_code
from .markdown import details, escape, first_sentence, heading, items, line, rendered, rows
from .rust import Item, surface
from .site import Page, in_repository

KIND_NAMES = {"fn": "function", "const": "constant"}
GROUPS = {"struct": "Structs", "enum": "Enums", "trait": "Traits", "type": "Types", "fn": "Functions",
          "const": "Constants"}
NOW = "A clause names a value <code>x</code> of this type as <code>x.now</code>, which is what <code>view</code> gives."
# a definition that more laws cite than this is about all of them
MANY_LAWS = 9


class ItemPages:
    """Makes the pages of all public modules and items."""

    def __init__(self, site, examples):
        self.site, self.reference, self.examples = site, site.reference, examples
        self.variants = self.unique_variants()
        self.laws = [it for it in self.reference.items if self.is_law(it)]
        self.laws_of = self.laws_by_cited()

    def is_law(self, item):
        return item.kind == "fn" and any("laws" in path.split("::") for path in (item.path or "", *item.other_paths))

    def unique_variants(self):
        """The variants whose names no other variant has."""
        found = {}
        for item in self.reference.items:
            for it in self.reference.parts(item):
                if it.kind == "variant":
                    found.setdefault(it.name, []).append(it)
        return {name: it[0] for name, it in found.items() if len(it) == 1}

    def laws_by_cited(self):
        """The laws that cite each definition or type."""
        found = {}
        for law in self.laws:
            for clause in law.clauses:
                for it in self.cited(law, clause):
                    laws = found.setdefault(it, [])
                    if law not in laws:
                        laws.append(law)
        return found

    def cited(self, owner, clause):
        """The definitions and the public types that a clause names."""
        for it in clause.cites.values():
            if isinstance(it, Definition):
                yield it.whole
            elif isinstance(it, Item) and self.reference.page_of(it):
                yield self.reference.page_of(it)
        for at in range(clause.first, clause.last):
            token = owner.source.tokens[at]
            found = self.rust_name(owner, at) if token.kind == "Code" else None
            if found:
                yield found

    # ------------------------------------------------------------ names

    def rust_name(self, owner, at):
        """The public type that a name in Rust's code means, or None."""
        token = owner.source.tokens[at]
        if token.kind not in ("Code", "Head") or not token.text[:1].isupper() or token.text in owner.parameters:
            return None
        if owner.owner is not None and token.text in owner.owner.parameters:
            return None
        before = owner.source.tokens[at - 2].text if owner.source.tokens[at - 1].text == "::" else None
        words = [before, token.text] if before and before[0].islower() else [token.text]
        for it in self.reference.crates.resolve(owner.scope, words):
            found = self.reference.page_of(it) if isinstance(it, Item) else None
            if found:
                return found
        return None

    def linker(self, page, owner, cites=()):
        """What a token of code leads to: its address and a title."""
        def link(at):
            found = cites[at] if at in cites else self.rust_name(owner, at)
            if found is None and owner.source.tokens[at].kind == "Antt":
                address = self.ghost(page, owner, owner.source.tokens[at].text)
                return (address, "") if address else None
            address = page.href(found) if found is not None else None
            return (address, self.site.says(found)) if address else None
        return link

    def words(self, page, item):
        """What a name or a path in a doc comment leads to."""
        def link(name, is_link):
            if name.startswith(("http:", "https:", "#")):
                return name
            found = self.named(item, name.replace("()", ""), is_link)
            address = page.href(found) if found is not None else None
            is_known = address or not is_link or self.reference.crates.resolve(item.scope, name.split("::"))
            if not is_known and name.replace("::", "").isidentifier():
                self.site.broken.append(f"{page.file}: the doc comment's link {name} leads nowhere")
            return address
        return link

    def named(self, item, name, is_link):
        """What a name or a path in the doc comment of something means."""
        parts = name.split("::")
        if not is_link and (len(parts) == 1 and not name[:1].isupper() or not all(it.isidentifier() for it in parts)):
            return None
        above = getattr(item.owner, "of", item.owner)
        if parts[0] == "Self":
            return self.part_of(self.reference.page_of(above or item), parts[1:])
        for count in range(len(parts), 0, -1):
            for it in self.reference.crates.resolve(item.scope, parts[:count]):
                found = self.reference.page_of(it) if isinstance(it, Item) else None
                if found:
                    return it if count == len(parts) and it.kind == "variant" else self.part_of(found, parts[count:])
        return self.variants.get(name)

    def part_of(self, item, names):
        """A method, a variant or a field of an item, or itself."""
        if not names:
            return item
        parts = self.reference.methods(item) + self.reference.parts(item)
        if item.target in self.reference.owners:
            parts += self.reference.methods(item.target) + self.reference.parts(item.target)
        return next((it for it in parts if it.name == names[0]), None)

    def full_name(self, it):
        """The name of something, after its type's if it is a method."""
        owner = getattr(it, "owner", None)
        above = getattr(owner, "of", None) or (owner if getattr(owner, "path", None) else None)
        return f"{above.path.rpartition('::')[2]}::{it.name}" if above and not isinstance(it, Definition) else it.name

    def ghost(self, page, owner, word):
        """The address of a trait's ghost item that a name in a clause means: its own, as `number`, or as `S.number`."""
        head, _, name = word.partition(".")
        if not head:
            return None
        above = owner.owner or owner
        traits = [above] if not name and above.kind == "trait" else self.bounds(owner, head)
        for it in traits:
            if any(ghost.name == (name or head) for ghost in it.ghosts):
                return page.local(f"{self.site.file_of(it)}#in-clauses.{name or head}")
        is_parameter = head[0].isupper() and head in owner.parameters | above.parameters
        address = self.site.ghost_of_std(name) if is_parameter and name else None
        return address and page.local(address)

    def bounds(self, owner, parameter):
        """The public traits that bound a type parameter of a function, or of the block that it is in."""
        for it in (owner, owner.owner):
            words = it.words() if it is not None else []
            for at, word in enumerate(words[:-1]):
                if word == parameter and words[at + 1] == ":" and words[at - 1] in ("<", ","):
                    end = next((place for place in range(at, len(words)) if words[place] in (",", ">", "<")), at)
                    names = [name for name in words[at + 2:end] if name[:1].isupper()]
                    found = [one for name in names for one in self.reference.crates.resolve(it.scope, [name])]
                    yield from self.with_traits_above(found)

    def with_traits_above(self, found):
        """The public traits among these, each with those that it is bounded by."""
        for it in found:
            if it in self.reference.owners and it.kind == "trait":
                yield it
                words = it.words()
                above = words[words.index(":"):] if ":" in words else []
                meanings = [self.reference.crates.resolve(it.scope, [one]) for one in above if one[:1].isupper()]
                yield from self.with_traits_above(one for found in meanings for one in found)

    # ------------------------------------------------------------ parts of pages

    def doc(self, page, item, level=4):
        shown = self.reference.shown(item) if item.kind == "type" and not item.doc else item
        return rendered(shown.doc, self.words(page, item), level)

    def head(self, page, item):
        first, last = item.head
        return html_code(code.shown(item.source, first, last, self.linker(page, item)))

    def clauses(self, page, owner, clauses, place):
        """Clauses as code, each with its name, and what the definitions that they name say."""
        made = []
        for keyword, title in (("requires", "Requires"), ("ensures", "Ensures")):
            group = [it for it in clauses if it.keyword == keyword]
            if group:
                made.append(f"<h4>{title}</h4>" + "".join(self.clause(page, owner, it, place) for it in group))
        return "".join(made) + self.terms(page, owner, clauses)

    def clause(self, page, owner, clause, place):
        """A clause or a ghost item, which can be linked to if it has a place and a name."""
        text = code.shown(owner.source, clause.first, clause.last, self.linker(page, owner, clause.cites), hanging=2)
        mark = f' id="{escape(place)}.{escape(clause.name)}"' if place and clause.name.isidentifier() else ""
        name = f'<span class="name">{escape(clause.name)}</span>' if clause.name else ""
        return f'<div class="clause"{mark}>{name}{html_code(text)}</div>'

    def terms(self, page, owner, clauses):
        """The definitions of the repository that clauses name, with what is said of each."""
        found = dict.fromkeys(it for clause in clauses for it in clause.cites.values() if isinstance(it, Definition))
        found = [it for it in found if in_repository(it) and it.comment]
        made = "".join(f"<div>{page.link(it)} {line(it.comment)}</div>" for it in found)
        return f'<div class="terms">{made}</div>' if made else ""

    def errors(self, page, item):
        """The variants of the error that a call returns, if it is an enum of this reference."""
        words = item.words()
        words = words[words.index("->") + 1:] if "->" in words else []
        for name in reversed([it for it in words if it[:1].isupper()]):
            for it in self.reference.crates.resolve(item.scope, [name]):
                found = self.error_type(it) if isinstance(it, Item) else None
                if found:
                    return self.error_line(page, found)
        return ""

    def error_type(self, item):
        """The enum of errors that a type means: itself, or what is in an alias of `Result`."""
        if item.kind == "type" and "Result" in item.words():
            for name in reversed(surface.split(item.words(), "=")[-1]):
                for it in self.reference.crates.resolve(item.scope, [name]) if name[:1].isupper() else []:
                    if isinstance(it, Item) and it.kind == "enum":
                        return it
        is_error = item.kind == "enum" and item.name.endswith(("Fault", "Error"))
        return item if is_error else None

    def error_line(self, page, item):
        variants = ", ".join(self.variant_of_error(page, it) for it in item.members if it.kind == "variant")
        return f'<p class="note">The error is a {page.link(item)}: {variants}.</p>'

    def variant_of_error(self, page, variant):
        """A variant of an error, and the types that it holds."""
        held = [self.rust_name(variant, at) for at in range(variant.first + 1, variant.last)]
        held = [page.link(it) for it in dict.fromkeys(held) if it]
        kinds = [f", whose kinds are {page.link(it)}" for it in self.kinds_in(variant)]
        return page.link(variant) + (f" (of {', '.join(held)}{''.join(kinds)})" if held else "")

    def kinds_in(self, variant):
        """The enums of kinds beside the errors that a variant holds."""
        for at in range(variant.first + 1, variant.last):
            found = self.rust_name(variant, at)
            if found:
                yield from (it for it in self.reference.items if it.name == f"{found.name}Kind" and it.kind == "enum")

    def laws_about(self, page, cited):
        """The laws that cite one of these, if not many do."""
        laws = [law for it in cited if len(self.laws_of.get(it, [])) <= MANY_LAWS for law in self.laws_of.get(it, [])]
        found = [f"<li>{page.link(it)} {line(first_sentence(it.doc))}</li>" for it in dict.fromkeys(laws)]
        return details(f"Laws ({len(found)})", f"<ul>{''.join(found)}</ul>") if found else ""

    def around(self, owner, clauses):
        """What clauses cite, and what these definitions are made of."""
        near = [it for clause in clauses for it in self.cited(owner, clause)]
        below = [it.whole for one in near if isinstance(one, Definition) and in_repository(one)
                 for it in one.cites.values() if isinstance(it, Definition)]
        return [it for it in dict.fromkeys(near + below) if not isinstance(it, Definition) or in_repository(it)]

    def examples_of(self, item):
        """The guide's examples that use this."""
        made = []
        for it in self.examples:
            if item in it.calls:
                result = html_code(escape(it.result)) if it.result else ""
                made.append(details(f"Example of the guide: {escape(it.heading)}", html_code(escape(it.code)) + result))
        return "".join(made)

    # ------------------------------------------------------------ a call

    def call(self, page, method, place):
        """A method or a function: its signature, and all that is said of it."""
        laws = self.laws_about(page, self.around(method, method.clauses)) if not self.is_law(method) else ""
        parts = [self.head(page, method), self.doc(page, method), self.errors(page, method),
                 self.clauses(page, method, method.clauses, place), self.examples_of(method), laws]
        return "\n".join(it for it in parts if it)

    def method(self, page, item, method):
        place = self.site.anchors[method].partition("#")[2]
        kind = "method" if method.kind == "fn" else method.kind
        self.site.enter(method.name, kind, item.path, self.site.anchors[method], method.doc)
        title = f'<h3><a class="self" href="#{escape(place)}">{escape(method.name)}</a></h3>'
        return f'<section class="call" id="{escape(place)}">{title}{self.call(page, method, place)}</section>'

    # ------------------------------------------------------------ a type

    def parts(self, page, item):
        """The fields or the variants of a type."""
        found, made = self.reference.parts(item), []
        for it in found:
            place = self.site.anchors[it].partition("#")[2]
            if not it.name.isdigit():
                self.site.enter(it.name, f"{it.kind} of", item.path, self.site.anchors[it], it.doc)
            head = code.shown(it.source, it.first, it.last, self.linker(page, it))
            inside = [f"<p><code>{escape(part.name)}</code>: {line(part.doc)}</p>" for part in it.members if part.doc]
            made.append((f'<span id="{escape(place)}">{head}</span>', self.doc(page, it) + "".join(inside)))
        title = "Variants" if found and found[0].kind == "variant" else "Fields"
        return f'<h2 id="parts">{title}</h2>{rows(made)}' if made else ""

    def ghosts(self, page, owner, clauses, place=""):
        """Ghost items as code."""
        made = [self.clause(page, owner, it, place) + (f"<p>{line(it.doc)}</p>" if it.doc else "") for it in clauses]
        return "".join(made) + self.terms(page, owner, clauses)

    def seen(self, page, item):
        """How clauses see a value of a type."""
        shown = self.reference.shown(item)
        models = [it for it in self.reference.trait_impls(item) if "Model" in it.trait]
        groups = [(it, it.ghosts) for it in models if it.ghosts] + ([(shown, shown.ghosts)] if shown.ghosts else [])
        made = "".join(self.ghosts(page, owner, clauses, "in-clauses") for owner, clauses in groups)
        says = NOW if models else "What clauses name of this."
        return f'<h2 id="clauses">In clauses</h2><p class="note">{says}</p>{made}' if made else ""

    def traits(self, page, item):
        """The traits of a type, derived and written; or the types of a trait."""
        shown = self.reference.shown(item)
        made = []
        if shown.derives:
            made.append(f"<p>Derived: {', '.join(f'<code>{escape(it)}</code>' for it in shown.derives)}</p>")
        impls = [it for it in self.reference.trait_impls(item) if "Model" not in it.trait] + item.implemented
        for it in impls:
            head = f"<code>{code.shown(it.source, it.first, it.head[1], self.linker(page, it))}</code>"
            inside = self.ghosts(page, it, it.ghosts)
            for method in it.members:
                if method.clauses:
                    inside += self.head(page, method) + self.clauses(page, method, method.clauses, "")
            made.append(details(head, inside) if inside else f"<p>{head}</p>")
        return f'<h2 id="traits">Traits</h2>{"".join(made)}' if made else ""

    # ------------------------------------------------------------ pages

    def crumbs(self, page, path):
        """The modules above, as links."""
        made = []
        for count in range(1, len(path)):
            found = self.reference.by_path.get(tuple(path[:count]))
            made.append(f'<a href="{page.href(found)}">{escape(path[count - 1])}</a>::')
        return f'<p class="path">{"".join(made)}</p>' if made else ""

    def item(self, item):
        """Writes the page of an item."""
        page = Page(self.site, self.site.file_of(item))
        path = item.path.split("::")
        kind = "law" if self.is_law(item) else item.kind
        self.site.enter(item.name, kind, "::".join(path[:-1]), page.file, item.doc or self.reference.shown(item).doc)
        others = ", ".join(f"<code>{escape(it)}</code>" for it in item.other_paths)
        also = f'<p class="also">Also {others}</p>' if others else ""
        body = [self.crumbs(page, path), heading(path[-1], KIND_NAMES.get(kind, kind)), also]
        if item.kind == "fn":
            body.append(f'<div id="{escape(item.name)}">{self.call(page, item, item.name)}</div>')
        else:
            body += self.type_parts(page, item)
        page.write(f"{path[-1]} in {'::'.join(path[:-1])}", "\n".join(it for it in body if it), self.side(page, item))

    def type_parts(self, page, item):
        shown, methods = self.reference.shown(item), self.reference.methods(item)
        calls = "\n".join(self.method(page, item, it) for it in methods)
        title = "Required and provided" if item.kind == "trait" else "Calls"
        laws = self.laws_about(page, [item, *self.around_type(item)]).replace("<details>", "<details open>")
        return [self.head(page, item), self.doc(page, item), self.target(page, item), self.examples_of(item),
                self.parts(page, item), f'<h2 id="calls">{title}</h2>{calls}' if calls else "",
                self.seen(page, item), self.traits(page, item), f'<h2 id="laws">Laws</h2>{laws}' if laws else ""]

    def target(self, page, item):
        """What an alias means, if that has a page of its own."""
        owner = self.reference.owners.get(item.target)
        return f'<p>Its calls are those of {page.link(owner)}.</p>' if owner and owner is not item else ""

    def around_type(self, item):
        """The definitions of which a type's values are, as clauses see them."""
        for impl in self.reference.trait_impls(item):
            for clause in impl.ghosts if "Model" in impl.trait else []:
                found = self.cited(impl, clause) if clause.name == "Value" else ()
                yield from (it for it in found if isinstance(it, Definition) and in_repository(it))

    def side(self, page, item):
        """The list beside a page: what is on it, and what is beside it in its module."""
        module = self.reference.by_path[tuple(item.path.split("::")[:-1])]
        calls = [(page.local(self.site.anchors[it]), it.name) for it in self.reference.methods(item)]
        beside = sorted((name, page.href(it)) for name, it in module.items)
        return items("Calls", calls) + items(f"In {module.path[-1]}", [it[::-1] for it in beside])

    def module(self, module):
        """Writes the page of a module."""
        page = Page(self.site, self.site.file_of(module))
        self.site.enter(module.path[-1], "module", "::".join(module.path[:-1]), page.file, module.doc)
        body = [self.crumbs(page, module.path), heading(module.path[-1], "module"),
                rendered(module.doc, self.words(page, _Place(module.scope)), 3), self.listed(page, module)]
        side = items("Modules", [(page.href(it), "::".join(it.path)) for it in self.reference.modules])
        page.write("::".join(module.path), "\n".join(body), side)

    def listed(self, page, module, level=2):
        """What is in a module."""
        made = []
        groups = {"Modules": [(it.path[-1], it, first_sentence(it.doc)) for it in module.modules]}
        for name, it in sorted(module.items, key=lambda it: it[0]):
            title = "Laws" if self.is_law(it) else GROUPS[it.kind]
            groups.setdefault(title, []).append((name, it, self.site.says(it)))
        for title in ("Modules", *GROUPS.values(), "Laws"):
            if groups.get(title):
                made.append(f"<h{level}>{title}</h{level}>")
                made.append(rows((page.link(it, name), line(says)) for name, it, says in groups[title]))
        return "".join(made)


class _Place:
    """Where a module's doc comment is."""

    def __init__(self, scope):
        self.scope, self.owner, self.kind = scope, None, "mod"
