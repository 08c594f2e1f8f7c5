"""The tables of tools/bench --beside: how long the phases take here and in the Rust crate, side by side.

Both programs run the phases, each run in its own process, and the least time counts. If a phase takes the crate too long, a further
run continues after it. If shapes are named, their tables are printed, and no page is written."""
import itertools
import os
import re
import subprocess
import sys
import tempfile
import textwrap
import time

from .beside_crate import ROOT, build, built_over
from .explained import rows as rows_by_rules

PAGE, README = f"{ROOT}/docs/PERFORMANCE.md", f"{ROOT}/README.md"
BEGIN, END = "<!-- tools/bench --beside -->\n", "<!-- end of tools/bench --beside -->\n"
OF_CRATE = ["reading", "tables", "firsts", "follows", "path", "greatest", "least", "min_sentence", "min_sentences", "every"]
NEED_LEAST = {"min_sentence", "min_sentences", "every"}
# the phases that a column adds up, here and in the crate, which finds costs on request
PARTS = {
    "reading": (["reading"], ["reading"]), "tables": (["tables"], ["tables"]), "FIRST": (["firsts"], ["firsts"]),
    "FOLLOW": (["follows"], ["follows"]), "path": (["path"], ["path"]),
    "costs": (["generator", "max_sentence_cost"], ["least", "greatest"]), "sentence": (["min_sentence"], ["min_sentence"]),
    "sentences": (["min_sentences"], ["min_sentences"]), "every": (["every"], ["every"]),
}
WHOLE = ["reading", "tables", "FIRST", "FOLLOW", "costs"]
COLUMNS = {"whole": tuple(sum(phases, []) for phases in zip(*(PARTS[it] for it in WHOLE))), **PARTS}
RUNS = 7
TURN = 1                                           # which size of a shape is taken, from 0
COUNTED = {"chain": 1, "ladder": 1, "declarations": 1, "languages": 2}  # of how many texts instructions are counted
SHORTEST = 0.02                                    # what both programs do in less than that has no ratio
SLOWER = re.compile(r"×0\.\d+|^(?:over|no memory|status)[^/]*(?= / \d)")


class Crate:
    """The crate's phases, in milliseconds."""

    def __init__(self, program, seconds, before):
        self.program, self.seconds, self.before = program, seconds, before

    def run(self, command):
        """The lines that a run wrote, and why it failed, or an empty text."""
        with tempfile.TemporaryFile("w+") as out:
            try:
                ran = subprocess.run(command, stdout=out, stderr=subprocess.DEVNULL, timeout=self.seconds, preexec_fn=self.before)
                why = {0: "", 101: "panics"}.get(ran.returncode, "no memory or stack")
            except subprocess.TimeoutExpired:
                why = f"over {self.seconds} s"
            out.seek(0)
            return out.read().splitlines(), why

    def once(self, file, phases):
        """What one run wrote about these phases, and why it ended before the last."""
        lines, why = self.run([self.program, "time", file, *phases])
        return {it[0]: int(it[2]) / 1000 for it in map(str.split, lines[1:])}, why

    def least(self, file, phases, runs):
        """The least of some runs for each phase, or why there is none."""
        least, selected = {}, list(phases)
        for _ in range(runs):
            left = list(selected)
            while left:
                found, why = self.once(file, left)
                least.update({phase: min(it, least.get(phase, it)) for phase, it in found.items()})
                if not why:
                    break
                stopped = next(it for it in left if it not in found)
                gone = {stopped, *(NEED_LEAST if stopped == "least" else ())}
                least.update({it: why if it == stopped else "-" for it in selected if it in gone})
                left, selected = ([it for it in those if it not in gone] for those in (left[left.index(stopped):], selected))
        return least


class CountedCrate(Crate):
    """The same in millions of instructions, as valgrind counts them between what the program writes."""

    def once(self, file, phases):
        with tempfile.TemporaryDirectory() as room:
            lines, why = self.run(["valgrind", "--tool=callgrind", "--dump-before=write", f"--callgrind-out-file={room}/part", self.program,
                                   "time", file, *phases])
            found = {}
            for number, line in enumerate(lines[1:], 2):
                with open(f"{room}/part.{number}", encoding="utf-8") as part:
                    total = next(it for it in part if it.startswith("totals:"))
                found[line.split()[0]] = int(total.split()[1]) / 1_000_000
            return found, why


def together(times, phases):
    """What these phases take together, or why that isn't known."""
    found = [times.get(phase) for phase in phases]
    reasons = [it for it in found if isinstance(it, str)]
    return reasons[0] if reasons else None if None in found else sum(found)


def cell(ours, theirs, number):
    """Both, and how many times as much the crate takes."""
    both = [it if isinstance(it, str) else "-" if it is None else number(it) for it in (ours, theirs)]
    if both == ["-", "-"]:
        return "-"
    has_ratio = all(isinstance(it, float) and it > 0 for it in (ours, theirs)) and max(ours, theirs) >= SHORTEST
    return " / ".join(both) + (f" ×{ratio(theirs / ours)}" if has_ratio else "")


def ratio(times):
    return f"{times:.0f}" if times >= 10 else f"{times:.1f}" if times >= 1 else f"{times:.2f}"


def texts(bench, shapes):
    """The texts of these shapes: for each its shape, its title and the text."""
    for name in shapes:
        make, smallest, unit = bench.SHAPES[name]
        if name == "languages":
            read = ((name, file, text) for file, text in make(None)
                    if not rows_by_rules.errors_of("Original", text.encode())[1])
            yield from itertools.islice(read, smallest)
        else:
            yield name, f"{name}, {smallest << TURN:,} {unit}", make(smallest << TURN)


def to_count(grammars):
    """Those texts whose instructions are counted."""
    return [it for shape, count in COUNTED.items() for it in [it for it in grammars if it[0] == shape][:count]]


def measured(bench, crate, given, grammars):
    """For each text its shape, its title, how many bytes it has, and for each column what it takes here and in the crate."""
    for shape, title, text in grammars:
        print(f"bench: {title}", file=sys.stderr, flush=True)
        mine = {phase: it for phase, it in zip(bench.PHASES, bench.measure(shape, text, given)[0]) if it != "no answer"}
        selected = [it for it in OF_CRATE if it != "every" or shape in bench.WITH_EVERY and not given.instructions]
        with tempfile.NamedTemporaryFile("w", suffix=".y", encoding="utf-8") as it:
            it.write(text)
            it.flush()
            crates = crate.least(it.name, selected, given.runs)
        both = {column: (together(mine, ours), together(crates, theirs)) for column, (ours, theirs) in COLUMNS.items()}
        yield shape, title, len(text.encode()), both


def table(bench, found, columns):
    rows = [[title, f"{size / 1000:.0f}", *(cell(*both[it], bench.number) for it in columns)]
            for _, title, size, both in found]
    return [["grammar", "KB", *columns], *rows]


def slower(bench, rows):
    """The grammars for which the crate is quicker, phase by phase."""
    head, *rest = rows
    found = {column: [f"{row[0]} {it[0]}" for row in rest for it in [SLOWER.search(row[at])] if it]
             for at, column in enumerate(head)}
    named = [[column, "; ".join(those)] for column, those in found.items() if those]
    if not named:
        return "Nothing here is slower than in the crate."
    return f"Slower than in the crate:\n\n{bench.markdown([['phase', 'grammars'], *named])}"


def headline(found):
    """How many times as long the crate takes for grammars of languages."""
    pairs = [both["whole"] for shape, _, _, both in found if shape == "languages"]
    if not pairs or not all(isinstance(it, float) for pair in pairs for it in pair):
        return ""
    times = sorted(theirs / ours for ours, theirs in pairs)
    count = "ten" if len(times) == 10 else len(times)
    return (f"Reading, numbering and analysing {count} grammars of languages takes the Rust crate {ratio(times[0])} to "
            f"{ratio(times[-1])} times as long ([by phases](docs/PERFORMANCE.md#compared-with-the-rust-crate)).")


def page(bench, given):
    """The headline, and the tables with the machine, as docs/PERFORMANCE.md has them."""
    program = given.driver or build(given.beside)
    load, grammars = os.getloadavg()[0], list(texts(bench, given.shapes or bench.SHAPES))
    crate = Crate(program, given.seconds, lambda: bench.limit(given.gigabytes))
    found = list(measured(bench, crate, given, grammars))
    counting = bench.argparse.Namespace(**{**vars(given), "instructions": True, "runs": 1})
    counted = list(measured(bench, CountedCrate(program, 10 * given.seconds, None), counting, to_count(grammars)))
    times, counts = table(bench, found, COLUMNS), table(bench, counted, [it for it in COLUMNS if it != "every"])
    about = (f"Measured on {time.strftime('%Y-%m-%d')} at the commit {bench.commit()}: {bench.machine()}; load "
             f"{load:.1f} at the start and {os.getloadavg()[0]:.1f} at the end. {'' if given.driver else built_over()}")
    what = (f"Milliseconds here / in the crate, the least of {given.runs} runs, and how many times as long the crate "
            f"takes, if one of them takes {SHORTEST} or more:")
    return headline(found), [about, what, bench.markdown(times), slower(bench, times),
                             "Millions of instructions, likewise:", bench.markdown(counts), slower(bench, counts)]


def put(file, text):
    """Puts a text between the marks in a file."""
    with open(file, encoding="utf-8") as it:
        before, begin, rest = it.read().partition(BEGIN)
    if not begin or END not in rest:
        sys.exit(f"bench: {file} has no marks for the comparison with the crate")
    with open(file, "w", encoding="utf-8") as out:
        out.write(f"{before}{BEGIN}{text}{END}{rest.partition(END)[2]}")


def write(bench, given):
    """Puts the tables into docs/PERFORMANCE.md and the headline into README.md, and draws the picture."""
    first_line, paragraphs = page(bench, given)
    if given.shapes:
        print("\n\n".join(paragraphs))
        return
    put(PAGE, "".join(f"\n{it.rstrip()}\n" for it in paragraphs) + "\n")
    put(README, f"{textwrap.fill(first_line, 100)}\n" if first_line else "")
    subprocess.run([f"{ROOT}/tools/picture"], check=True)
