"""The Markdown of doc comments and of definitions' comments, as HTML; and the parts that all pages are made of."""
import html
import re

INLINE = re.compile(r"(`+)(.+?)\1|\[((?:`[^`]*`|[^\[\]`])+)\](?:\(([^)\s]+)\))?|\*\*(.+?)\*\*", re.S)


def escape(text):
    return html.escape(text, quote=True)


def inline(text, link):
    """A paragraph's text. `link` returns the address of what a name or a path means, or None."""
    made, at = [], 0
    for it in INLINE.finditer(text):
        made.append(escape(text[at:it.start()]))
        at = it.end()
        if it[1]:
            made.append(anchor(f"<code>{escape(it[2])}</code>", link(it[2], False)))
        elif it[3]:
            name = it[3].strip("`")
            address = link(it[4] or name, True)
            is_name = address or it[4] or it[3].startswith("`")
            made.append(anchor(inline(it[3], lambda *_: None), address) if is_name else escape(it[0]))
        else:
            made.append(f"<strong>{inline(it[5], link)}</strong>")
    return "".join(made) + escape(text[at:])


def anchor(made, address):
    return f'<a href="{escape(address)}">{made}</a>' if address else made


def blocks(text):
    """The blocks of a text: fenced code as one, and what is between empty lines."""
    found, fence = [[]], False
    for line in text.split("\n"):
        if line.startswith("```"):
            fence = not fence
            found += [[line]] if fence else []
            if not fence:
                found[-1].append(line)
                found.append([])
        elif fence or line.strip():
            starts = not fence and found[-1] and (line.startswith("#") or found[-1][0].startswith("#"))
            found += [[]] if starts else []
            found[-1].append(line)
        else:
            found.append([])
    return [it for it in found if it]


def rendered(text, link, level=3):
    """A text as HTML; its headings begin at this level."""
    return "\n".join(block(it, link, level) for it in blocks(text))


def block(lines, link, level):
    first = lines[0]
    if first.startswith("```"):
        return code(escape("\n".join(lines[1:-1])))
    if first.startswith("#"):
        return f"<h{level}>{inline(first.lstrip('# '), link)}</h{level}>"
    if re.match(r"[-*] ", first):
        items = re.split(r"^[-*] ", "\n".join(lines), flags=re.M)[1:]
        return "<ul>" + "".join(f"<li>{inline(it.strip(), link)}</li>" for it in items) + "</ul>"
    if first.startswith("|"):
        return table(lines, link)
    return f"<p>{inline(chr(10).join(lines), link)}</p>"


def table(lines, link):
    rows = [[cell.strip() for cell in re.split(r"(?<!\\)\|", it.strip("| "))] for it in lines]
    head = "".join(f"<th>{inline(it, link)}</th>" for it in rows[0])
    body = "".join("<tr>" + "".join(f"<td>{inline(it, link)}</td>" for it in row) + "</tr>" for row in rows[2:])
    return f'<div class="wide"><table><tr>{head}</tr>{body}</table></div>'


def line(text):
    """A line of a comment."""
    return inline(text, lambda *_: None)


def rows(found):
    """A list of names, each with what is said of it."""
    return f'<dl class="list">{"".join(f"<dt>{name}</dt><dd>{says}</dd>" for name, says in found)}</dl>'


def items(title, found):
    """A short list of links, beside a page."""
    made = "".join(f'<li><a href="{escape(address)}">{escape(name)}</a></li>' for address, name in found)
    return f"<h4>{escape(title)}</h4><ul>{made}</ul>" if made else ""


def details(title, body):
    """What is shown if a reader opens it."""
    return f"<details><summary>{title}</summary>{body}</details>"


def code(text):
    return f"<pre><code>{text}</code></pre>"


def heading(name, kind):
    return f'<h1>{escape(name)} <span class="kind">{kind}</span></h1>'


def first_sentence(text):
    """The first sentence of a text."""
    paragraph = re.split(r"\n\s*\n", text.strip())[0].replace("\n", " ")
    return re.match(r".*?\.(?=\s|$)|.*", paragraph)[0].strip()


def plain(text):
    """A text's words, for the search."""
    return re.sub(r"\s+", " ", re.sub(r"\[([^\]]*)\](?:\([^)]*\))?|[`*#]", lambda it: it[1] or "", text)).strip()
