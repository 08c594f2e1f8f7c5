"""The examples of docs/GUIDE.md, and the calls that each uses."""
import re

from .rust import Item, expected, surface

GUIDE = "docs/GUIDE.md"


# the types of the variables that the guide uses without a 'let'
VARIABLES = {"grammar": "YaccGrammar", "generator": "SentenceGenerator", "parsed": "ASTWithValidityInfo",
             "ast": "GrammarAST", "copy": "GrammarAST"}


class Example:
    """A part of the guide with code: its heading, its code, the result below it, and what it and its section call."""

    def __init__(self, heading, code, result):
        self.heading, self.code, self.result, self.calls, self.named = heading, code, result, [], []


def examples(reference):
    """The examples of the guide, with the calls that they use."""
    pages = expected.load("pages")
    text = surface.text_of(GUIDE)
    found = []
    for it in pages.PART.finditer(text):
        if it[2].split()[0] == "code":
            heading = re.findall(r"^## (.*)$", text[:it.start()], re.M)[-1]
            parts = re.findall(r"```(\w+)\n(.*?)```", it[3], re.S)
            example = Example(heading, parts[0][1].rstrip(), "\n".join(body.rstrip() for _, body in parts[1:]))
            section = text[text.rindex("\n## ", 0, it.start()):].split("\n## ")[1]
            example.calls = calls(reference, example.code)
            prose = pages.PART.sub("", section)
            example.named = calls(reference, example.code + "\n" + "\n".join(re.findall(r"`([^`]*)`", prose)))
            found.append(example)
    if not found:
        raise SystemExit(f"reference: {GUIDE} has no example")
    return found


def calls(reference, code):
    """The items and methods that code uses: by name, and methods by the types that are named or returned."""
    code = re.sub(r"//.*", "", code)
    words = set(re.findall(r"\w+", code))
    words |= {name for it, name in VARIABLES.items() if re.search(rf"\b{it}(\(\))?\.", code)}
    called = set(re.findall(r"(?:\b(\w+)(?:\(\))?|\))\s*\.(\w+)\(", code))
    made = set(re.findall(r"(\w+)(?:::<[^>]*>)?::(\w+)\(", code))
    types = [it for it in reference.items if it.path.rpartition("::")[2] in words and it.kind != "fn"]
    used = [it for it in reference.items if it.kind == "fn" and re.search(rf"(?<![.\w]){it.name}\(", code)]
    pending, known = [*types], []
    while pending:
        it = pending.pop()
        if it in known:
            continue
        known.append(it)
        name = it.path.rpartition("::")[2]
        other = "" if name in VARIABLES.values() else name
        mine = {call for variable, call in called if VARIABLES.get(variable, other) == name}
        for method in reference.methods(it):
            is_used = method.name in mine if "self" in method.parameters else (name, method.name) in made
            if is_used and method not in used:
                used.append(method)
                pending += returned(reference, method)
    return types + used


def returned(reference, method):
    """The public types in what a method returns."""
    words = method.words()
    words = words[words.index("->"):] if "->" in words else []
    for word in words:
        for it in reference.crates.resolve(method.scope, [word]) if word[0].isupper() else []:
            owner = reference.owners.get(it) if isinstance(it, Item) else None
            if owner:
                yield owner
