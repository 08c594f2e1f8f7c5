"""Source files as the toolchain reads them: the tokens of `rattle fmt --tokens`, and the comments between them."""
import json
import os
import re
import subprocess
from bisect import bisect_left
from typing import NamedTuple

from modules.programs import ROOT, Kit, Stopped

try:
    KIT = Kit().folder
except Stopped as why:
    raise SystemExit(f"reference: {why}") from None
JOINED = {"::", "->", "=>"}


class Token(NamedTuple):
    """A token: its first byte and the byte after it, what it is part of (Code, Head, End, Antt, ..), and its text."""
    start: int
    end: int
    kind: str
    text: str


class Source:
    """A file's bytes and tokens, and the column of each token that is first on its line."""

    def __init__(self, file, rows):
        self.file, self.tokens, self.columns = file, [], {}
        with open(file, "rb") as it:
            self.data = it.read()
        starts = [0, *(it.end() for it in re.finditer(b"\n", self.data))]
        tokens, line_before, last, make = self.tokens, "", Token(0, 0, "", ""), tuple.__new__
        for row in rows.split("\n")[:-1]:
            line, start, end, kind, word = row.split(" ", 4)
            word = word[1:-1] if "\\" not in word else json.loads(word)
            token = make(Token, (int(start), int(end), kind, word))
            # two marks of Rust that are one operator become one token
            if kind == "Code" and last.end == token.start and last.kind == kind and last.text + word in JOINED:
                token = tokens[-1] = Token(last.start, token.end, kind, last.text + word)
            else:
                if line != line_before:
                    self.columns[len(tokens)] = token.start - starts[int(line) - 1]
                    line_before = line
                tokens.append(token)
            last = token
        self.line_begins = sorted(self.columns)

    def statements(self, first, last):
        """The statements of a block: each begins at the block's own column."""
        begins = self.line_begins[bisect_left(self.line_begins, first):bisect_left(self.line_begins, last)]
        begins = [it for it in begins if self.columns[it] == self.columns[begins[0]]]
        return list(zip(begins, [*begins[1:], last]))

    def text(self, start, end):
        return self.data[start:end].decode()

    def before(self, at):
        """What is between the token at this place and the one before it: comments and spaces."""
        end = self.tokens[at].start if at < len(self.tokens) else len(self.data)
        return self.text(self.tokens[at - 1].end if at else 0, end)

    def comment(self, at, mark):
        """The comment whose lines begin with this mark and end right above the token at this place."""
        found = []
        for line in reversed(self.before(at).rstrip(" ").split("\n")[:-1]):
            words = line.strip()
            if not words.startswith(mark) or (mark == "//" and words.startswith(("///", "//!"))):
                break
            found.append(words[len(mark):])
        return "\n".join(it[1:] if it.startswith(" ") else it for it in reversed(found))

    def head_comment(self, mark):
        """The comment with which the file begins."""
        lines = []
        for line in self.before(0).split("\n"):
            if not line.startswith(mark):
                break
            lines.append(re.sub("^ ", "", line[len(mark):]))
        return "\n".join(lines)


ROWS, READ = {}, {}


def read(files):
    """Has the toolchain read files that it hasn't read yet, in one call."""
    files = [it for it in dict.fromkeys(files) if it not in ROWS]
    if not files:
        return
    ran = subprocess.run([f"{KIT}/bin/rattle", "fmt", "--tokens", *files], capture_output=True, check=False)
    rows = re.split(r"^file \d+\n", ran.stdout.decode(), flags=re.M)[1:]
    if ran.returncode or len(rows) != len(files):
        raise SystemExit(f"reference: rattle can't read the sources: {ran.stderr.decode(errors='replace')}")
    ROWS.update(zip(files, rows))


def source(file):
    if file not in READ:
        read([file])
        READ[file] = Source(file, ROWS[file])
    return READ[file]


def is_file(path):
    return os.path.isfile(path)


def shown(file):
    """A file's path as readers know it: in the repository, or in the kit."""
    return os.path.relpath(file, ROOT) if file.startswith(f"{ROOT}/") else os.path.relpath(file, f"{KIT}/rattle")
