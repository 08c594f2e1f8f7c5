"""Tests of bin/vendor, over a library of two small crates."""
import os
import re
import shutil
import subprocess

from toy import ROOT, read, write

LISTED = "# Foundations\nlow:\nother: low\n\n# The library\ncfgrammar: low\n"
SOURCES = {
    "crates.txt": LISTED,
    "CHANGELOG.md": "# Changes\n- the first line\n",
    "docs/GUIDE.md": "# Guide\n<!-- tools/pages: code -->\n[laws](LAWS.md#a), [here](#guide), the [README](../README.md)\n",
    "docs/LAWS.md": "# Laws\n\n## A\n[ROWS.md](ROWS.md) and [guide](GUIDE.md)\n",
    "LICENSE-APACHE": "a licence\n",
    "LICENSE-MIT": "a licence\n",
    "crates/low/src/lib.rt": "low 1\n",
    "crates/low/specs/Lib.antt": "specs\n",
    "crates/low/must-fail/wrong.edit": "wrong\n",
    "crates/low/out/kept": "kept\n",
    "crates/other/src/lib.rt": "other\n",
    "crates/cfgrammar/src/lib.rt": "library 1\n",
    "crates/cfgrammar/src/old.rt": "old\n",
}
COPY = {
    "crates/low/src/lib.rt", "crates/low/specs/Lib.antt", "crates/cfgrammar/src/lib.rt", "crates/cfgrammar/src/old.rt",
    "crates/cfgrammar/CHANGELOG.md", "crates/cfgrammar/LICENSE-APACHE", "crates/cfgrammar/LICENSE-MIT",
    "crates/cfgrammar/GUIDE.md", "crates/cfgrammar/LAWS.md", "crates/cfgrammar/VENDORED", "crates.txt", ".gitignore",
}
LINES = "# The library cfgrammar: bin/vendor writes these lines\nlow:\ncfgrammar: low\n# The end of the library cfgrammar\n"


def library(room):
    top = f"{room}/library"
    for path, text in SOURCES.items():
        write(f"{top}/{path}", text)
    os.makedirs(f"{top}/bin")
    shutil.copy(f"{ROOT}/bin/vendor", f"{top}/bin/vendor")
    return top


def vendor(top, *words, status=0):
    ran = subprocess.run([f"{top}/bin/vendor", *words], capture_output=True, text=True)
    assert "Traceback" not in ran.stderr, ran.stderr
    assert ran.returncode == status, f"status {ran.returncode}, not {status}: {ran.stdout}{ran.stderr}"
    return ran.stdout + ran.stderr


def files(folder):
    """The files of a folder, with their texts."""
    found = {}
    for at, folders, names in os.walk(folder):
        folders[:] = [it for it in folders if it != ".git"]
        found.update({os.path.relpath(f"{at}/{it}", folder): read(f"{at}/{it}") for it in names})
    return found


def test_vendor_into_a_new_folder(room):
    top, copy = library(room), f"{room}/a [b]/copy"
    said = vendor(top, copy)
    assert "2 crates, 9 files" in said and "demo: cfgrammar" in said, said
    made = files(copy)
    assert set(made) == COPY, f"it has {set(made) ^ COPY} more or less"
    assert all(SOURCES.get(it, text) == text for it, text in made.items() if it != "crates.txt")
    assert made["crates.txt"] == LINES and made[".gitignore"] == "out/\n", made["crates.txt"] + made[".gitignore"]
    assert os.path.isdir(f"{copy}/.git"), "no git repository"
    assert "version 0.15.0\n" in made["crates/cfgrammar/VENDORED"]
    guide, laws = (made[f"crates/cfgrammar/{it}.md"].splitlines() for it in ("GUIDE", "LAWS"))
    assert guide[0] == "# Guide" and guide[-1] == "[laws](LAWS.md#a), [here](#guide), the README", guide
    assert laws[-2:] == ["## A", "ROWS.md and [guide](GUIDE.md)"], laws


def test_vendor_beside_crates_of_ones_own(room):
    top, copy = library(room), f"{room}/copy"
    write(f"{copy}/crates.txt", "# mine\ndemo: cfgrammar\n")
    write(f"{copy}/.gitignore", "*.log")
    write(f"{copy}/crates/demo/src/main.rt", "mine\n")
    vendor(top, copy)
    assert read(f"{copy}/crates.txt") == f"{LINES}\n# mine\ndemo: cfgrammar\n", read(f"{copy}/crates.txt")
    assert read(f"{copy}/.gitignore") == "*.log\nout/\n" and read(f"{copy}/crates/demo/src/main.rt") == "mine\n"


def test_vendor_again(room):
    top, copy = library(room), f"{room}/copy"
    vendor(top, copy)
    before = {it: os.stat(f"{copy}/{it}") for it in files(copy)}
    assert "as before" in vendor(top, copy)
    assert before == {it: os.stat(f"{copy}/{it}") for it in files(copy)}, "it wrote files that are as they were"


def newer(top):
    write(f"{top}/crates/low/src/lib.rt", "low 2\n")
    write(f"{top}/crates/new/src/lib.rt", "new\n")
    write(f"{top}/crates.txt", "low:\nnew:\ncfgrammar: low new\n")
    write(f"{top}/CHANGELOG.md", "# Changes\n- the first line\n- another line\n")
    os.remove(f"{top}/crates/cfgrammar/src/old.rt")
    shutil.rmtree(f"{top}/crates/low/specs")


def test_vendor_a_later_version(room):
    top, copy = library(room), f"{room}/copy"
    vendor(top, copy)
    write(f"{copy}/crates/low/out/kept", "kept\n")
    newer(top)
    said = vendor(top, copy)
    assert "- another line" in said and "first line" not in said, said
    made = files(copy)
    assert made["crates/low/src/lib.rt"] == "low 2\n" and "crates/new/src/lib.rt" in made
    assert "crates/cfgrammar/src/old.rt" not in made and not os.path.exists(f"{copy}/crates/low/specs")
    assert "new:" in made["crates.txt"] and "crates/low/out/kept" in made
    write(f"{top}/crates.txt", "new:\ncfgrammar: new\n")
    vendor(top, copy)
    assert not os.path.exists(f"{copy}/crates/low"), "a crate that the library no longer has is still there"


def test_vendor_again_after_it_was_stopped(room):
    top, copy = library(room), f"{room}/copy"
    vendor(top, copy)
    newer(top)
    write(f"{copy}/crates/low/src/lib.rt", "low 2\n")
    write(f"{copy}/crates/new/src/lib.rt", "new\n")
    vendor(top, copy)
    assert "- another line" in read(f"{copy}/crates/cfgrammar/CHANGELOG.md")
    assert "as before" in vendor(top, copy)


def test_vendor_over_a_changed_copy(room):
    top, copy = library(room), f"{room}/copy"
    vendor(top, copy)
    newer(top)
    for path, text in (("low/src/lib.rt", "mine\n"), ("low/src/lib.rt", None), ("low/src/mine.rt", "mine\n")):
        path, before = f"{copy}/crates/{path}", files(copy)
        os.remove(path) if text is None else write(path, text)
        edited = files(copy)
        said = vendor(top, copy, status=1)
        assert os.path.relpath(path, copy) in said, f"{path} isn't named: {said}"
        assert files(copy) == edited, "it wrote files"
        os.remove(path) if os.path.relpath(path, copy) not in before else write(path, before[os.path.relpath(path, copy)])


def test_vendor_refuses(room):
    top, copy = library(room), f"{room}/copy"
    write(f"{copy}/crates.txt", "low:\n")
    assert "names of the library's: low" in vendor(top, copy, status=1)
    write(f"{copy}/crates.txt", "")
    write(f"{copy}/crates/low/mine", "")
    assert "names of the library's: low" in vendor(top, copy, status=1)
    assert not os.path.exists(f"{copy}/crates/cfgrammar")
    assert "is in this repository" in vendor(top, f"{top}/copy", status=1)
    write(f"{room}/file", "")
    vendor(top, f"{room}/file", status=1)
    os.remove(f"{top}/crates/low/src/lib.rt")
    assert "isn't whole: low" in vendor(top, f"{room}/other", status=1)
    for words in ((), ("a", "b"), ("--wrong",), ("",)):
        assert "vendor FOLDER" in vendor(top, *words, status=2)
    assert "vendor FOLDER" in vendor(top, "--help")


def test_vendor_of_this_repository(room):
    vendor(ROOT, f"{room}/copy")
    listed = [it for it in read(f"{room}/copy/crates.txt").splitlines() if not it.startswith("#")]
    assert set(listed) <= set(read(f"{ROOT}/crates.txt").splitlines()), "crates.txt has other lines"
    names = [it.partition(":")[0] for it in listed]
    assert names[-1] == "cfgrammar" and sorted(os.listdir(f"{room}/copy/crates")) == sorted(names)
    for page in ("GUIDE.md", "LAWS.md", "CHANGELOG.md"):
        text = read(f"{room}/copy/crates/cfgrammar/{page}")
        links = re.findall(r"\]\(([^)#]*)(#[^)]*)?\)", text)
        gone = [to for to, _ in links if to and not os.path.isfile(f"{room}/copy/crates/cfgrammar/{to}")]
        assert not gone and "<!--" not in text, f"{page} has links to {gone}, or comments of tools"
        assert links or page == "CHANGELOG.md", f"{page} has no links"
