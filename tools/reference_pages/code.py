"""Code as HTML: the sources' own text, with a link at each name that has a page."""
import re

from .markdown import escape

KEYWORDS = set("""pub fn struct enum trait type const impl for where mut dyn as
abbrev record data let in λ elim unfolding unfoldable""".split())


def shown(source, first, last, link, hanging=0):
    """The text of these tokens; lines after the first hang by so much. `link` returns a token's address and title."""
    tokens, made = source.tokens, []
    start = tokens[first].start
    before = source.text(source.data.rfind(b"\n", 0, start) + 1, start)
    indent = len(before) - len(before.lstrip()) + hanging
    end = start
    for at in range(first, last):
        token = tokens[at]
        if token.end <= end:
            continue
        made.append(gap(source.text(end, token.start), indent))
        text = source.text(token.start, token.end)
        found = link(at)
        if found:
            address, title = found
            title = f' title="{escape(title)}"' if title else ""
            mark = ' class="o"' if not re.search(r"\w", text) else ""
            made.append(f'<a{mark} href="{escape(address)}"{title}>{escape(text)}</a>')
        elif text == "->":
            made.append('<span class="n">-&gt;</span>')
        elif text in KEYWORDS:
            made.append(f'<span class="k">{escape(text)}</span>')
        else:
            made.append(escape(text))
        end = token.end
    return "".join(made)


def gap(text, indent):
    """What is between two tokens: spaces and comments, without the indentation of the whole."""
    text = re.sub("\n {0,%d}" % indent, "\n", text)
    return re.sub(r"(--|///?)[^\n]*", lambda it: f'<span class="c">{escape(it[0])}</span>', text)
