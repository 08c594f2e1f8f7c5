"""Each checker, on a copy of the repository, against inputs that are emptied, shortened or changed."""
import contextlib
import os
import re
import shutil
import stat
import subprocess
import sys
from concurrent.futures import ThreadPoolExecutor

ROOT = os.path.dirname(os.path.dirname(os.path.dirname(os.path.realpath(__file__))))
TEXTS, ANSWERS = (f"rows/data/original/{it}" for it in ("texts.rows", "answers.txt"))
LONG = "rows/data/long/beginnings"
# crates whose files are changed
CRATES = {"vectors", "cfganalysis"}


def copied(room):
    """A copy of the repository without what is built and without proofs. Crates whose files are only read are links."""
    copy = f"{room}/copy"
    ignored = shutil.ignore_patterns(".git", "crates", "out", "proofs")
    shutil.copytree(ROOT, copy, ignore=ignored)
    os.mkdir(f"{copy}/crates")
    for name in os.listdir(f"{ROOT}/crates"):
        if name in CRATES:
            shutil.copytree(f"{ROOT}/crates/{name}", f"{copy}/crates/{name}", ignore=ignored)
        else:
            os.symlink(f"{ROOT}/crates/{name}", f"{copy}/crates/{name}")
    return copy


def run(copy, *command, where="", **variables):
    """How a command of the copy ends, and all that it prints."""
    streams = {"stdin": subprocess.DEVNULL, "stdout": subprocess.PIPE, "stderr": subprocess.STDOUT}
    ran = subprocess.run([f"{copy}/{command[0]}", *command[1:]], cwd=f"{copy}/{where}", env={**os.environ, **variables},
                         text=True, check=False, **streams)
    return ran.returncode, ran.stdout


def passes(copy, *command, **given):
    status, printed = run(copy, *command, **given)
    assert status == 0, f"{command}: status {status}: {printed[-500:]}"


def fails(copy, words, *command, status=1, **given):
    """Whether a command fails for this reason, in place of a traceback."""
    found, printed = run(copy, *command, **given)
    is_so = found == status and words in printed and "Traceback" not in printed
    assert is_so, f"{command}: status {found}: {printed[-500:]}"


@contextlib.contextmanager
def changed(copy, file, change):
    """While a file of the copy has another text, or is gone if that is None."""
    with open(f"{copy}/{file}", encoding="utf-8", newline="") as it:
        before = it.read()
    after = change(before)
    assert after != before, f"{file} isn't changed"
    os.remove(f"{copy}/{file}")
    if after is not None:
        write(f"{copy}/{file}", after)
    yield
    write(f"{copy}/{file}", before)


def write(file, text, mode=0o644):
    os.makedirs(os.path.dirname(file), exist_ok=True)
    with open(file, "w", encoding="utf-8", newline="") as it:
        it.write(text)
    os.chmod(file, mode)


def emptied(_):
    return ""


def gone(_):
    return None


def without(pattern):
    """The text without the first match."""
    return lambda text: re.sub(pattern, "", text, count=1, flags=re.M | re.S)


def another_digit(pattern):
    """The text with another first digit of the first match."""
    return lambda text: re.sub(pattern, lambda it: str((int(it[0][0]) + 1) % 10) + it[0][1:], text, count=1)


def replaced(old, new):
    return lambda text: text.replace(old, new, 1)


# ---------------------------------------------------------------- the pages

def test_pages(room):
    copy = copied(room)
    passes(copy, "tools/pages", "check")
    for file, change, words in [
        ("docs/PROMISES.md", emptied, "docs/PROMISES.md clauses: 0 found"),
        ("docs/PROMISES.md", lambda it: it.replace("<!-- end -->\n", ""), "docs/PROMISES.md: "),
        ("docs/PROMISES.md", without("<!-- end -->\n"), "there is a comment in the part"),
        ("docs/GUIDE.md", gone, "docs/GUIDE.md code: 0 found"),
        ("docs/GUIDE.md", replaced("<!-- tools/pages: ", "<!-- tools/page: "), "marks no part"),
        ("docs/GUIDE.md", replaced("(../README.md#call-the-library)", "(../README.md#call-it)"), "leads nowhere"),
        ("README.md", replaced("(docs/TESTING.md)", "(docs/TESTED.md)"), "the link docs/TESTED.md leads nowhere"),
        ("docs/DECISIONS.md", emptied, "docs/DECISIONS.md headings: 0 found"),
        ("README.md", gone, "README.md headings: 0 found"),
        ("docs/TESTING.md", another_digit(r"\d rows \(\[ROWS\]"), "rows"),
        ("docs/TESTING.md", another_digit(r"\d+\s+results of the crate"), "results of"),
        ("docs/TESTING.md", replaced(" rows ([ROWS]", " lines ([ROWS]"), "{} rows"),
        ("docs/PERFORMANCE.md", another_digit(r"\d grammars of the repository"), "grammars of the repository"),
        ("tools/last_runs.txt", replaced(" texts, 0", "1 texts, 0"), "Last runs: "),
        ("tools/expected.txt", emptied, "0 expected"),
        ("tools/expected.txt", gone, "expected.txt is gone"),
        ("crates/cfganalysis/src/paths.rt", replaced("cfganalysis.specs.Paths.", "cfgcycles.specs.Inner.Layers."),
         "paths.rt cites specs/Inner of cfgcycles"),
        ("crates/cfganalysis/specs/Follows.antt", replaced("cfgsets.specs.Table.", "cfganalysis.specs.Inner.Visits."),
         "Follows.antt is outside specs/Inner, and cites it"),
        ("crates/cfganalysis/src/productive.rt", replaced("specs.ProductiveRules.", "specs.Inner.ProductiveRules."),
         "what callers see of productive_rules cites AreProductiveRules of specs/Inner"),
    ]:
        with changed(copy, file, change):
            fails(copy, words, "tools/pages", "check")


FAKE = """#!/bin/sh
case $* in
"examples/search.y") cat {0}/lint ;;
"eco grammar a.y") echo "1:7: Unknown reference to rule 'B'"; exit 1 ;;
esac
"""


def test_samples(room):
    """The sample passes of which a program prints what README.md says; so do those of calls of the library."""
    copy = copied(room)
    with open(f"{copy}/README.md", encoding="utf-8") as it:
        block = re.search(r"^    \$ bin/cfglint.*\n((?:    .*\n)*)", it.read(), re.M)[1]
    write(f"{room}/lint", re.sub("^    ", "", block, flags=re.M))
    for name in ("cfgtool", "cfglint"):
        write(f"{room}/{name}", FAKE.format(room), 0o755)
    ours = ("README.md: $ bin/cfglint", "docs/BEHAVIOUR.md: bin/cfgtool eco", "the errors of `", "from_str of `")
    for file, change, broken in [
        ("README.md", None, []),
        ("README.md", replaced("search.y:7:9: warning", "search.y:7:8: warning"), [ours[0]]),
        ("docs/BEHAVIOUR.md", replaced("`1:7: Unknown", "`1:8: Unknown"), [ours[1]]),
        ("docs/BEHAVIOUR.md", replaced("(7,8), (16,17) |", "(7,8), (16,18) |"), [ours[2]]),
        ("docs/BEHAVIOUR.md", another_digit(r"9\) \|\n\| `%grmtools\{yacckindof"), [ours[3]]),
    ]:
        with changed(copy, file, change) if change else contextlib.nullcontext():
            _, printed = run(copy, "tools/samples", f"{room}/cfgtool", f"{room}/cfglint")
        assert re.search(r"^\d+ passed, \d+ failed$", printed, re.M), printed
        assert [it for it in ours if it in printed] == broken, f"{file}, {broken}: {printed[:2000]}"
    with changed(copy, "docs/BEHAVIOUR.md", replaced("| Text | Errors |", "| Texts | Errors |")):
        fails(copy, "lists_of_errors: 0 found", "tools/samples", "/bin/true", "/bin/true")


# ---------------------------------------------------------------- rows

def test_rows(room):
    copy = copied(room)
    passes(copy, "tools/expected.py", "check")
    for file, change, words in [
        ("rows/data/vectors/worked.rows", without(r"^row .*?\n(?=row )"), "rows vectors/worked.rows"),
        ("rows/data/lint/many.rows", emptied, "rows lint/many.rows: 0 found"),
        ("rows/data/lint/json.rows", gone, "rows lint/json.rows: 0 found"),
        ("rows/args", without(r"^values/marks.rows\n"), "rows values/marks.rows: 0 found"),
        ("rows/stdout", without(r"^== .*?\n(?=== )"), "rows stdout"),
        ("tools/expected.txt", without(r"^rows lint/many.rows.*?\n"), "rows lint/many.rows"),
    ]:
        with changed(copy, file, change):
            fails(copy, words, "tools/expected.py", "check")


def test_printed_rows(room):
    """The program prints other results, fails, or doesn't compile."""
    copy, program = copied(room), f"{room}/program"
    prints = '#!/bin/sh\n[ "$1" != vectors/worked.rows ] || cat ../stdout\n'
    os.remove(f"{copy}/tools/build_program")
    write(f"{copy}/tools/build_program", f"#!/bin/sh\necho {program}\n", 0o755)
    write(program, prints, 0o755)
    passes(copy, "tools/rows")
    for text, words in [
        (prints.replace("cat", "sed '0,/lines/s//line/'"), "1 failed"),
        (prints.replace("cat", "sed '0,/^== [a-z]*/s//== other/'"), "+== other"),
        (prints + "exit 3\n", "values/marks.rows: status 3"),
        (prints + "echo fault >&2\n", "fault"),
        (prints.replace("worked", "none"), "failed"),
    ]:
        write(program, text, 0o755)
        fails(copy, words, "tools/rows")
    write(program, prints, 0o755)
    with changed(copy, "rows/data/lint/many.rows", emptied):
        fails(copy, "rows lint/many.rows: 0 found", "tools/rows")
    write(f"{copy}/tools/build_program", "#!/bin/sh\nexit 126\n", 0o755)
    fails(copy, "", "tools/rows", status=126)


def test_nothing_to_find(room):
    """Nothing is found, and a list that expects nothing doesn't make that right."""
    copy = copied(room)
    none = lambda it: re.sub(r"(?<=^rows lint/many.rows: )\d+", "0", it, flags=re.M)
    with changed(copy, "rows/data/lint/many.rows", emptied), changed(copy, "tools/expected.txt", none):
        fails(copy, "rows lint/many.rows: 0 found, 0 expected", "tools/expected.py", "check")


def test_other_numbers(room):
    """Each checker counts what it is about to check, and fails if the list has another number."""
    copy, both = copied(room), ["/bin/true", "/bin/true"]
    write(f"{room}/bin/cc", "#!/bin/sh\n", 0o755)
    given = {"CFGTOOL": "/bin/true", "CFGLINT": "/bin/true", "PATH": f"{room}/bin:{os.environ['PATH']}"}
    for what, command in [
        ("refuse rows", ["refuse", "--program", "/bin/true"]),
        ("real_runs runs of cfglint", ["real_runs", *both]),
        ("large shapes of cfgtool", ["large"]),
        ("words words", ["words"]),
        ("samples README.md words", ["samples", *both]),
    ]:
        with changed(copy, "tools/expected.txt", without(rf"^{what}: .*?\n")):
            fails(copy, f"{what}: ", f"tools/{command[0]}", *command[1:], **given)


def test_original_rows(room):
    copy = copied(room)
    both = ["tools/original_rows", "--program", "/bin/true"]
    for file, change, words in [
        (TEXTS, emptied, "original_rows texts: 0 found"),
        (TEXTS, without(r"^row row-7\n.*?\n(?=\n)"), "original_rows texts: "),
        (TEXTS, replaced("row row-7\n", "row row-7-x\n"), "row-7 "),
        (ANSWERS, emptied, "original_rows answers: 0 found"),
        (ANSWERS, without(r"^@.*?\n"), "original_rows answers: "),
        ("docs/DIFFERENCES.md", without(r"^\|[^\n]* \| `follow` \|\n"), "original_rows differences: "),
    ]:
        with changed(copy, file, change):
            fails(copy, words, *both)
    with changed(copy, TEXTS, emptied), changed(copy, ANSWERS, emptied):
        fails(copy, "original_rows texts: 0 found", *both)


def test_long_rows(room):
    """The program prints what is stored of the row that it is given."""
    copy = copied(room)
    stored = f"{copy}/{LONG}.stdout"
    print_row = f'read -r _ name <"$1"\nawk -v row="== $name" \'/^== /{{on = $0 == row}} on\' {room}/stdout\n'
    write(f"{room}/program", f"#!/bin/sh\n{print_row}", 0o755)
    shutil.copy(stored, f"{room}/stdout")
    passes(copy, "tools/long_rows", "--program", f"{room}/program")
    with changed(copy, f"{LONG}.rows", emptied), changed(copy, f"{LONG}.stdout", emptied):
        fails(copy, "long_rows rows: 0 found", "tools/long_rows", "--program", f"{room}/program")
    first = [without(r"^cuts .*?\n(?=cuts )"), without(r"^== .*?\n(?=== )")]
    with changed(copy, f"{LONG}.rows", first[0]), changed(copy, f"{LONG}.stdout", first[1]):
        fails(copy, "long_rows rows: ", "tools/long_rows", "--program", f"{room}/program")
    with changed(copy, f"{LONG}.stdout", lambda it: re.sub(r"digest .", "digest x", it, count=1)):
        fails(copy, "1 failed", "tools/long_rows", "--program", f"{room}/program")


def test_no_texts(room):
    """A run on no text at all is no success."""
    copy = copied(room)
    none = ["--program", "/bin/true", "--texts", "0"]
    fails(copy, "0 texts, 0 differences", "tools/fuzz", *none)
    fails(copy, "0 texts, 0 that differ", "tools/beside", "original", "--driver", "/bin/true", *none)
    with changed(copy, "rows/data/vectors/pairs.rows", without(r"^row .*?\n(?=row )")):
        fails(copy, "fuzz texts of rows and examples: ", "tools/fuzz", *none)
    for kind in ("texts", "costs", "lint"):
        fails(copy, "/dev/null has no rows", "tools/rules", kind, "/dev/null")


def test_large(room):
    copy = copied(room)
    fails(copy, "invalid choice: 'nosuch'", "tools/large", "nosuch", status=2, CFGTOOL="/bin/true", CFGLINT="/bin/true")


# ---------------------------------------------------------------- sources

def test_words(room):
    copy = copied(room)
    fails(copy, "git lists no files of the repository", "tools/words", GIT_CEILING_DIRECTORIES=room)
    for folder in ("crates", "wrong-bodies", "docs", "tools/by_rules"):
        shutil.rmtree(f"{copy}/{folder}")
    shutil.copytree(f"{ROOT}/bin", f"{copy}/docs")
    for command in (["init", "-q"], ["add", "-A"]):
        subprocess.run(["git", *command], cwd=copy, check=True)
    passes(copy, "tools/words", where="docs")
    for file in ("README.md", "examples/search.y"):
        with changed(copy, file, lambda it: it + "\nIt goes without saying.\n"):
            fails(copy, "1  in all", "tools/words", where="docs")
    write(f"{copy}/docs/fronts/loops.rows", "")
    subprocess.run(["git", "add", "-A"], cwd=copy, check=True)
    fails(copy, "docs/fronts: its name", "tools/words", "--list", where="docs")


def test_pictures(room):
    """A shape is gone from the tables, and so from the picture that is drawn of them."""
    copy = copied(room)
    passes(copy, "tools/picture", "check")
    with changed(copy, "docs/performance/tables.md", without(r"^### wide\n.*?(?=^### )")):
        passes(copy, "tools/picture")
        fails(copy, "picture shapes: ", "tools/picture", "check")


def test_surface(room):
    """A file of a crate is gone, and so are the lines of what it writes out."""
    copy = copied(room)
    source = "crates/vectors/src/signatures"
    passes(copy, "tools/surface", "check")
    name = sorted(os.listdir(f"{copy}/{source}"))[0]
    line = without(rf"^(pub )?mod {name[:-3]};\n")
    with changed(copy, f"{source}/{name}", gone), changed(copy, f"{source}.rt", line):
        _, lines = run(copy, "tools/surface", "list")
        with changed(copy, "docs/SURFACE.txt", lambda _: lines):
            fails(copy, "surface files: ", "tools/surface", "check")


def test_reference(room):
    """A comment, a definition, a line or an item is gone, or something is public that no line names."""
    copy = copied(room)
    passes(copy, "tools/reference", "--check")
    signature = "    pub fn is_epsilon_set("
    for file, change, words in [
        ("crates/cfganalysis/src/firsts.rt", without(r"^    /// [^\n]*\n(?=    pub fn is_set)"), "is_set has no doc comment"),
        ("crates/cfganalysis/src/lib.rt", without(r"firsts_over"), "reference items: "),
        ("crates/cfganalysis/src/firsts.rt", emptied, "reference items: "),
        ("crates/cfganalysis/src/firsts.rt", replaced(signature, signature.replace("pub ", "")), "reference calls: "),
        ("crates/cfganalysis/src/firsts.rt", replaced("{AreFirsts", "{WereFirsts"), "names AreFirsts, which nothing defines"),
        ("crates/cfganalysis/specs/Firsts.antt", emptied, "names AreFirsts, which nothing defines"),
        ("crates/cfganalysis/src/firsts.rt", without(r"^        ensures { IsTrue .*?$"), "reference clauses: "),
        ("crates/cfganalysis/specs/Firsts.antt", replaced("First, Nullable}", "First}"), "names Nullable, which nothing defines"),
        ("docs/SURFACE.txt", replaced("cfgrammar::Vob.get()", "cfgrammar::Vob.gets()"), "cfgrammar::Vob.gets() has no page"),
        ("docs/SURFACE.txt", without(r"^cfgrammar::Vob.get\(\)\n"), "no line names cfgrammar::Vob.get()"),
        ("docs/SURFACE.txt", replaced("#   cfgrammar::Vob.words()", "#   cfgrammar::Vob.word()"), "no line names cfgrammar::Vob.words()"),
        ("docs/SURFACE.txt", emptied, "has no line"),
        ("tools/expected.txt", without(r"^reference clauses: .*?\n"), "reference clauses: "),
    ]:
        with changed(copy, file, change):
            fails(copy, words, "tools/reference", "--check")


def test_pages_of_the_reference(room):
    """What only the pages show: a name of the kit that isn't known there, and a link that leads nowhere."""
    copy, made = copied(room), f"{room}/pages"
    with changed(copy, "tools/reference_pages/antt.py", replaced(', "ruleset"', "")):
        passes(copy, "tools/reference", "--check")
        fails(copy, "names arith, which nothing defines", "tools/reference", made)
    with changed(copy, "crates/cfganalysis/src/firsts.rt", replaced("    /// ", "    /// See [`nothing`]. ")):
        fails(copy, "the doc comment's link nothing leads nowhere", "tools/reference", made)
    assert not os.path.exists(made)


def test_wrong_bodies(room):
    copy = copied(room)
    for name in CRATES:
        # (edits change proof files too)
        if os.path.isdir(f"{ROOT}/crates/{name}/proofs"):
            os.symlink(f"{ROOT}/crates/{name}/proofs", f"{copy}/crates/{name}/proofs")
    passes(copy, "tools/wrong_bodies", "--check")
    for folder in ("wrong-bodies/cfgsyntax", "crates/cfganalysis/must-fail"):
        edit = sorted(os.listdir(f"{copy}/{folder}"))[-1]
        with changed(copy, f"{folder}/{edit}", gone):
            fails(copy, f"wrong_bodies {folder}: ", "tools/wrong_bodies", "--check")
        with changed(copy, f"{folder}/{edit}", lambda text: re.sub("^right:.*\n", "", text, flags=re.M)):
            fails(copy, f"{folder}/{edit} has no control", "tools/wrong_bodies", "--check")
        with changed(copy, f"{folder}/{edit}", lambda text: re.sub("^old: ", "old: no such line", text, count=1, flags=re.M)):
            fails(copy, f"{folder}/{edit}: an 'old:' text is in ", "tools/wrong_bodies", "--check")


# ---------------------------------------------------------------- how tools are called

def test_each_tool_has_its_line(room):
    """tools/README.md has a line for each file and folder beside it, but for lists and what these lines name in brackets."""
    with open(f"{ROOT}/tools/README.md", encoding="utf-8") as it:
        listed = re.findall(r"^\| `([\w.]+)/?` \|", it.read(), re.M)
    beside = {"README.md", "expected.txt", "last_runs.txt", "script_tests", "bench_program", "original", "__pycache__"}
    there = set(os.listdir(f"{ROOT}/tools")) - beside
    assert sorted(listed) == sorted(there), sorted(there ^ set(listed))


def test_help(room):
    """Each tool prints its usage if that is requested, and as an error if it is given what it doesn't know."""
    copy = copied(room)
    tools = sorted(f"tools/{it.name}" for it in os.scandir(f"{copy}/tools") if it.is_file() and os.access(it, os.X_OK))
    assert len(tools) >= 21, tools

    def ends(tool, argument):
        given = {"stdin": subprocess.DEVNULL, "capture_output": True, "check": False, "timeout": 60}
        ran = subprocess.run([f"{copy}/{tool}", argument], **given)
        return tool, ran.returncode, len(ran.stdout) > 100, len(ran.stderr) > 50

    with ThreadPoolExecutor(4) as lanes:
        for argument in ("-h", "--help"):
            scripts = [".ci/run", "bin/cfgtool", "bin/install", "bin/try"]
            for found in lanes.map(lambda it: ends(it, argument), [*tools, *scripts]):
                assert found[1:] == (0, True, False), f"{argument}: {found}"
        for found in lanes.map(lambda it: ends(it, "--nosuch"), tools):
            assert found[1:] == (2, False, True), f"--nosuch: {found}"


def test_refuse_without_compiler(room):
    """Nothing is built if nothing can be tried."""
    copy = copied(room)
    os.makedirs(f"{room}/bin")
    os.symlink(sys.executable, f"{room}/bin/python3")
    write(f"{copy}/tools/build_program", f"#!/bin/sh\n: >{room}/built\n", 0o755)
    fails(copy, "there is no C compiler", "tools/refuse", status=77, PATH=f"{room}/bin")
    assert not os.path.exists(f"{room}/built")


# ---------------------------------------------------------------- where tools build

BUILD = """import sys
sys.dont_write_bytecode = True
sys.path.insert(0, 'tools')
from modules import beside_crate
print(beside_crate.build('{}'))
"""


def test_original_is_built_in_the_cache(room):
    """The Rust crate's program is built in a folder that only the user may write, by the lock file."""
    copy = copied(room)
    write(f"{room}/crate/Cargo.toml", '[package]\nname = "cfgrammar"\nversion = "0.15.0"\n')
    write(f"{room}/bin/cargo", f'#!/bin/sh\necho "$@" >>{room}/cargo\n', 0o755)
    path = f"{room}/bin:{os.environ['PATH']}"
    given = {**os.environ, "PATH": path, "XDG_CACHE_HOME": f"{room}/cache", "TMPDIR": room}
    build = [sys.executable, "-c", BUILD.format(f"{room}/crate")]
    found = subprocess.run(build, cwd=copy, env=given, capture_output=True, text=True, check=True).stdout
    assert found.startswith(f"{room}/cache/cfgrammar-original/"), found
    assert stat.S_IMODE(os.stat(f"{room}/cache/cfgrammar-original").st_mode) == 0o700
    with open(f"{room}/cargo", encoding="utf-8") as it:
        assert "--offline --locked" in it.read()
    os.chmod(f"{room}/cache/cfgrammar-original", 0o777)
    ran = subprocess.run(build, cwd=copy, env=given, capture_output=True, text=True, check=False)
    assert ran.returncode == 1 and "only its user may write" in ran.stderr, ran
