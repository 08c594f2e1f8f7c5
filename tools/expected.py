#!/usr/bin/env python3
"""expected.py: how many things each checker has to find. tools/expected.txt lists them, so an input that is removed,
emptied or renamed is found, and a change that adds or removes something changes the list.

  tools/expected.py write    counts them anew, and writes the list
  tools/expected.py check    shows where the list differs from what is there; the status is 1 if it does anywhere

A checker has a function `counts`, and fails (`require`) if what it counts isn't what the list has of it. Beside the
list, tools/last_runs.txt has the last lines of tools whose runs nothing repeats: `--keep` has a tool put its own there.
tools/pages puts the numbers of both files into the pages.
"""
import os
import re
import sys
from importlib.machinery import SourceFileLoader
from types import ModuleType

sys.dont_write_bytecode = True
from modules.usage import usage

HERE = os.path.dirname(os.path.realpath(__file__))
LIST, RUNS = f"{HERE}/expected.txt", f"{HERE}/last_runs.txt"
ROWS = f"{os.path.dirname(HERE)}/rows"
CHECKERS = ("pages", "samples", "picture", "wrong_bodies", "surface", "reference", "words", "long_rows", "original_rows",
            "fuzz", "refuse", "real_runs", "large")
HEAD = "# How many things each checker has to find, by 'tools/expected.py write'.\n"


def load(name):
    """A tool as a module."""
    made = ModuleType(name)
    loader = SourceFileLoader(name, f"{HERE}/{name}")
    made.__file__ = loader.path
    loader.exec_module(made)
    return made


# ---------------------------------------------------------------- counting

def count_lines(file, pattern):
    """How many lines of a file begin so."""
    try:
        with open(file, encoding="utf-8", newline="") as it:
            return len(re.findall(f"^{pattern}", it.read(), re.M))
    except FileNotFoundError:
        return 0


def rows():
    """How many rows each file has, and how many results are stored."""
    with open(f"{ROWS}/args", encoding="utf-8") as it:
        files = it.read().split()
    found = {it: count_lines(f"{ROWS}/data/{it}", "[a-z]") for it in files}
    return {**found, "stdout": count_lines(f"{ROWS}/stdout", "== ")}


def counted():
    """What each checker counts, by 'CHECKER WHAT'."""
    found = {f"rows {what}": number for what, number in rows().items()}
    for name in CHECKERS:
        found.update({f"{name} {what}": number for what, number in load(name).counts().items()})
    return found


# ---------------------------------------------------------------- the list

def listed():
    """How many things the list has, by 'CHECKER WHAT'."""
    try:
        with open(LIST, encoding="utf-8") as it:
            return {what: int(number) for what, number in re.findall(r"^([^#].*): (\d+)$", it.read(), re.M)}
    except FileNotFoundError:
        sys.exit("tools/expected.txt is gone")


def differing(found, expected):
    """What is there in another number than the list has, and of what there is nothing, as messages."""
    names = [it for it in sorted({*found, *expected}) if found.get(it) != expected.get(it) or not found[it]]
    said = [f"{it}: {found.get(it, 0)} found, {expected.get(it, 0)} expected" for it in names]
    return said or ["nothing is found"] * (not found)


def require(checker, found):
    """Ends a checker if it doesn't find what the list has of it."""
    found = {f"{checker} {what}": number for what, number in found.items()}
    show(differing(found, {what: it for what, it in listed().items() if what.startswith(f"{checker} ")}))


def show(differences):
    """Ends with status 1 if there are differences."""
    if differences:
        sys.exit("\n".join([*differences, "If that is meant, run 'tools/expected.py write'"]))


# ---------------------------------------------------------------- the last runs

def keep_last_run(tool, line):
    """Puts the last line of a tool into the file of last runs."""
    with open(RUNS, encoding="utf-8") as it:
        kept = re.sub(rf"^{tool}: .*$", f"{tool}: {line}", it.read(), flags=re.M)
    with open(RUNS, "w", encoding="utf-8") as it:
        it.write(kept)


def last_run(tool):
    """The numbers in the last line of a tool, in order."""
    with open(RUNS, encoding="utf-8") as it:
        found = re.search(rf"^{tool}: (.*)$", it.read(), re.M)
    if not found:
        sys.exit(f"tools/last_runs.txt has no line of {tool}")
    return [int(it) for it in re.findall(r"\d+", found[1])]


def main(arguments):
    usage(__doc__, arguments, arguments in (["write"], ["check"]))
    if arguments == ["check"]:
        require("rows", rows())
        return show(differing(counted(), listed()))
    lines = [f"{what}: {number}\n" for what, number in counted().items()]
    with open(LIST, "w", encoding="utf-8") as it:
        it.write(HEAD + "".join(lines))
    return None


if __name__ == "__main__":
    sys.exit(main(sys.argv[1:]))
