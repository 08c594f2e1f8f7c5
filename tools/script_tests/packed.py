"""Tests of tools/package, and of bin/install --from."""
import gzip
import hashlib
import io
import os
import re
import shutil
import subprocess
import sys
import tarfile

from toy import ROOT, Toy, path_without, read, write, write_script

sys.path.insert(0, f"{ROOT}/tools")
from modules import debian, manual, packages

ARCHIVE, TOP = "cfgrammar-0.15.0-proved.tar.gz", "cfgrammar-0.15.0-proved"
USAGE = "cfglint reports errors.\n\nusage: cfglint [OPTION..] FILE..\n\n  --kind KIND  a kind\n\nstatus: 0\n"
SOURCES = {"cfglint_main/src/main.rt": f"{USAGE}\ncfglint 0.15.0\nlint 1\n"}


def packed(room):
    """A repository whose programs are proved, and the folder with what tools/package made of them."""
    toy = Toy(f"{room}/first", sources=SOURCES)
    assert toy.call("install", f"{room}/first/bin")[0] == 0
    status, out, said = pack(toy, f"{room}/packed")
    assert (status, said) == (0, "") and "are in" in out, f"{status} {out} {said}"
    return toy, f"{room}/packed"


def pack(toy, folder):
    return toy.call("", words=[f"{toy.top}/tools/package", folder])


def clone(room, name="second"):
    """A repository of the same state in which nothing is proved."""
    return Toy(f"{room}/{name}", "clone", sources=SOURCES)


def refuses(toy, archive, *texts):
    """Installs from an archive, which has to be refused for this reason, and leaves nothing."""
    status, out, said = toy.call("install", "--from", archive, f"{toy.room}/to")
    assert (status, out) == (1, ""), f"{status} {out} {said}"
    assert len(said.splitlines()) == 1 and said.startswith(f"install: nothing is installed from {archive}: "), said
    assert all(it in said for it in texts), f"not {texts}: {said}"
    assert not os.path.exists(f"{toy.room}/to") and not os.path.exists(f"{toy.kit}/builds")
    left = [it for name in ("cfglint_main", "cfgtool_main") if os.path.isdir(toy.source(f"{name}/out"))
            for it in os.listdir(toy.source(f"{name}/out"))]
    assert left == [], left


def members(archive):
    """The files of an archive, by their names."""
    with tarfile.open(archive) as it:
        return {at.name: it.extractfile(at).read() for at in it if at.isreg()}


def with_sums(files):
    """These files of an archive, with their checksums."""
    files = {it[len(TOP) + 1:]: made for it, made in files.items()}
    files.pop("SHA256SUMS", None)
    return {f"{TOP}/{it}": made for it, made in {**files, "SHA256SUMS": packages.sums_of(files)}.items()}


def write_archive(path, files, *others):
    """Writes an archive of files, and of other members."""
    with tarfile.open(path, "w:gz") as it:
        for name, made in files.items():
            entry = tarfile.TarInfo(name)
            entry.size = len(made)
            it.addfile(entry, io.BytesIO(made))
        for entry in others:
            it.addfile(entry, io.BytesIO(b"x" * entry.size))


def member(name, kind=tarfile.REGTYPE, leads_to="", size=0):
    made = tarfile.TarInfo(name)
    made.type, made.linkname, made.size = kind, leads_to, size
    return made


def test_programs_of_an_archive_run_at_once(room):
    (first, made), toy = packed(room), clone(room)
    status, out, said = toy.call("install", "--from", f"../packed/{ARCHIVE}", "to", cwd=toy.room)
    assert status == 0 and out.startswith(f"cfgtool and cfglint are in {toy.room}/to\n"), f"{status} {out} {said}"
    sums = {name: read(first.source(f"{name}_main/out/proved/now")).strip() for name in ("cfgtool", "cfglint")}
    assert said.splitlines() == [
        "install: this was proved elsewhere, and isn't proved here",
        f"install: the kit that proved it: {read(f'{toy.kit}/KIT-ID').splitlines()[0]}",
        *(f"install: the checksum of all that {name} was made of: {sum}" for name, sum in sums.items()),
    ], said
    few = f"{toy.kit}/bin:{path_without(toy.room, 'python3')}"
    for name, text in (("cfglint", "lint 1"), ("cfgtool", "tool 1")):
        assert toy.runs(name, text, "low 1") == toy.runs(name, text, path=few) == "", "it isn't run at once"
        assert read(f"{toy.room}/to/{name}") == read(f"{first.room}/bin/{name}")
    assert not os.path.exists(f"{toy.kit}/builds"), "it is proved"
    assert pack(toy, f"{room}/again")[0] == 0
    for it in os.listdir(made):
        with open(f"{made}/{it}", "rb") as one, open(f"{room}/again/{it}", "rb") as other:
            assert one.read() == other.read(), f"{it} differs"
    write(toy.source("low/src/lib.rt"), "low 2\n")
    assert "proving" in toy.runs("cfglint", "low 2")


def test_an_archive_of_another_state(room):
    _, made = packed(room)
    for number, (path, text, says) in enumerate([
            ("crates/low/src/lib.rt", "low 2\n", ["differs in crates/low/src/lib.rt"]),
            ("crates/low/src/more.rt", "", ["differs in crates/low/src/more.rt"]),
            ("crates/low/proofs/number/Answers.antt", "another proof\n", ["crates/low/proofs/number/Answers.antt"]),
            ("crates/cfgtool_main/src/main.rt", "tool 2\n", ["differs in crates/cfgtool_main/src/main.rt"]),
            ("crates.txt", "low:\nmore:\ncfglint_main: low more\ncfgtool_main: low\n", ["cfglint_main in crates.txt"]),
            ("HANDLES", "Handles allowed: Threads.\n", ["differs in HANDLES"]),
            ("tools/modules/run_unchanged.c", "", ["differs in tools/modules/run_unchanged.c"]),
            ("../kit/KIT-ID", "another kit logic 0\n", ["differs in KIT-ID of the kit", "here: another kit logic 0"]),
            ("../kit/WHAT", "", ["differs in WHAT of the kit"])]):
        toy = clone(room, f"clone {number}")
        if "more" in text:
            write(f"{toy.top}/crates/more/src/lib.rt", "more 1\n")
        write(os.path.normpath(f"{toy.top}/{path}"), text)
        refuses(toy, f"{made}/{ARCHIVE}", *says)
    os.remove(toy.source("cfglint_main/src/main.rt"))
    for it in range(9):
        write(toy.source(f"low/src/file{it}.rt"), "")
    refuses(toy, f"{made}/{ARCHIVE}", "and 5 others")


def is_refused(archive, text):
    """Whether an archive is refused for this reason, before anything is done with what it has."""
    try:
        packages.Archive(archive)
    except packages.Refused as why:
        assert text in str(why), f"not {text}: {why}"
    else:
        raise AssertionError(f"it isn't refused: {text}")


def test_a_damaged_archive(room):
    (_, made), toy, damaged = packed(room), clone(room), f"{room}/damaged.tar.gz"
    refuses(toy, f"{room}/none", "it can't be read: No such file or directory")
    refuses(toy, room, "it can't be read: Is a directory")
    with open(f"{made}/{ARCHIVE}", "rb") as it:
        whole = it.read()
    texts = [b"", b"text", whole[:-1], whole[:len(whole) // 2], whole + b"x", *map(gzip.compress, (b"", b"x" * 5000))]
    for text in texts:
        with open(damaged, "wb") as it:
            it.write(text)
        is_refused(damaged, "it ")
    refuses(toy, damaged, "it is damaged, or no archive of tools/package")
    files, refused = packages.Archive(f"{made}/{ARCHIVE}").files, 0
    for at in range(0, len(whole), 7):
        with open(damaged, "wb") as it:
            it.write(whole[:at] + bytes([whole[at] ^ 1]) + whole[at + 1:])
        try:
            # (some bits of a compressed file mean nothing)
            assert packages.Archive(damaged).files == files, f"damage at {at}"
        except packages.Refused:
            refused += 1
    assert refused > len(whole) // 8, f"{refused} of {len(whole) // 7}"
    files = members(f"{made}/{ARCHIVE}")
    for name in files:
        for changed in ({it: text for it, text in files.items() if it != name}, {**files, name: files[name] + b"x"}):
            write_archive(damaged, changed)
            is_refused(damaged, "damaged: what it has differs from its checksums")
    refuses(toy, damaged, "damaged: what it has differs from its checksums")


def test_what_no_archive_has(room):
    (_, made), toy, changed = packed(room), clone(room), f"{room}/changed.tar.gz"
    files = members(f"{made}/{ARCHIVE}")
    lint, there = f"{TOP}/cfglint_main", sorted([*os.listdir(room), "changed.tar.gz"])
    for entry in (member(f"{TOP}/../../evil"), member("/tmp/evil"), member(f"{TOP}/evil"), member("../evil"),
                  member(f"{TOP}/cfglint_main/../evil/program"), member("..", tarfile.DIRTYPE),
                  member(f"{TOP}/evil", tarfile.DIRTYPE), member(f"{TOP}/KIT-ID"), member(f"{lint}/program"),
                  member(f"{TOP}/other/program", tarfile.SYMTYPE, "/etc/passwd"),
                  member(f"{TOP}/other/program", tarfile.LNKTYPE, f"{TOP}/KIT-ID"),
                  member(f"{TOP}/other/program", tarfile.FIFOTYPE), member("evil", size=2000)):
        write_archive(changed, files, entry)
        is_refused(changed, f"no archive of tools/package has {entry.name!r}")
    refuses(toy, changed, "no archive of tools/package has 'evil', as this one does")
    write_archive(changed, files, member("cfgrammar-1-proved/other/program"))
    is_refused(changed, "no archive of tools/package")
    fails = b"#!/bin/sh\nexit 3\n"
    sum = hashlib.sha256(fails).hexdigest().encode()
    for more, says in (
            ({f"{lint}/made-of": files[f"{lint}/made-of"] + b"absent  HANDLES\n"}, "differs in HANDLES"),
            ({f"{lint}/made-of": b"\xff\n\n x"}, "it was made of something else"),
            ({f"{lint}/program": fails}, "it has no undamaged cfglint_main"),
            ({f"{lint}/program": fails, f"{lint}/program.sum": sum}, "cfglint_main doesn't run")):
        write_archive(changed, with_sums({**files, **more}))
        refuses(toy, changed, says)
    write_archive(changed, with_sums({it: text for it, text in files.items() if "cfgtool_main" not in it}))
    refuses(toy, changed, "it has no undamaged cfgtool_main")
    assert sorted(os.listdir(room)) == there, "something is put beside it"


def test_nothing_to_pack(room):
    toy = Toy(room, sources=SOURCES)
    status, out, said = pack(toy, f"{room}/packed")
    assert status == 1 and "no proved cfgtool and no proved cfglint is kept" in said, f"{status} {out} {said}"
    toy.runs("cfglint")
    assert "nothing is made: no proved cfgtool is kept" in pack(toy, f"{room}/packed")[2]
    toy.runs("cfgtool")
    kept = read(toy.source("cfglint_main/out/proved/now")).strip()
    with open(toy.source(f"cfglint_main/out/proved/{kept}/program"), "a", encoding="utf-8") as it:
        it.write("damage\n")
    assert "no proved cfglint is kept" in pack(toy, f"{room}/packed")[2]
    assert toy.builds("cfglint_main") == toy.builds("cfgtool_main") == 1 and not os.path.exists(f"{room}/packed")


def test_what_is_packed(room):
    toy, made = packed(room)
    deb = next(it for it in os.listdir(made) if it.endswith(".deb"))
    assert sorted(os.listdir(made)) == sorted(["SHA256SUMS", ARCHIVE, deb]), os.listdir(made)
    for line in read(f"{made}/SHA256SUMS").splitlines():
        with open(f"{made}/{line[66:]}", "rb") as it:
            assert hashlib.sha256(it.read()).hexdigest() == line[:64], line
    with open(f"{made}/{deb}", "rb") as it:
        assert it.read(8) == b"!<arch>\n"
        parts = {}
        for head in iter(lambda: it.read(60), b""):
            size = int(head[48:58])
            parts[head[:16].decode().strip()] = it.read(size)
            it.read(size % 2)
    assert [*parts] == ["debian-binary", "control.tar.gz", "data.tar.gz"] and parts["debian-binary"] == b"2.0\n"
    for packed_files in (parts["control.tar.gz"], parts["data.tar.gz"]):
        with tarfile.open(fileobj=io.BytesIO(packed_files)) as it:
            entries = it.getmembers()
            assert {(at.uid, at.gid, at.mtime, at.uname) for at in entries} == {(0, 0, 0, "root")}
            assert [at.name for at in entries] == sorted(at.name for at in entries)
    with tarfile.open(fileobj=io.BytesIO(parts["data.tar.gz"])) as it:
        files = {at.name: it.extractfile(at).read() for at in it if at.isreg()}
        assert {it.getmember(f"./usr/bin/{name}").mode for name in ("cfglint", "cfgtool")} == {0o755}
    assert files["./usr/bin/cfglint"].decode() == read(f"{toy.room}/bin/cfglint")
    assert b"\\-\\-kind" in gzip.decompress(files["./usr/share/man/man1/cfglint.1.gz"])
    assert b"--kind" in files["./usr/share/bash-completion/completions/cfglint"]
    if shutil.which("dpkg-deb"):
        subprocess.run(["dpkg-deb", "-x", f"{made}/{deb}", f"{room}/unpacked"], check=True)
        assert read(f"{room}/unpacked/usr/bin/cfgtool") == read(f"{toy.room}/bin/cfgtool")
        fields = subprocess.run(["dpkg-deb", "-f", f"{made}/{deb}"], capture_output=True, text=True, check=True).stdout
        assert "Package: cfgrammar\nVersion: 0.15.0\n" in fields, fields


def test_what_a_program_needs_of_debian(room):
    program = b"\x7fELF" + bytes(14) + b"\x3e\0\0GLIBC_2.4\0GLIBC_2.34\0GLIBC_2.17\0libgcc_s.so.1\0"
    assert debian.needs(program) == "libc6 (>= 2.34), libgcc-s1"
    assert debian.architecture(program) == "amd64"
    assert (debian.needs(b"#!/bin/sh\n"), debian.architecture(b"#!/bin/sh\n")) == ("", "all")


# ---------------------------------------------------------------- what the programs say of themselves

def says_usage(room):
    """A program that says of itself what cfglint does, and lists the values of two options."""
    text = re.search(r'const HELP: &str =\s*"(.*?)";', read(f"{ROOT}/crates/cfglint_shell/src/usage.rt"), re.S)[1]
    write(f"{room}/help", text.replace("\\\\", "\\").replace('\\"', '"'))
    write_script(f"{room}/cfglint", f"""case $1 in
    -h) cat '{room}/help' ;;
    --kind=*) echo "cfglint: unknown kind '?': the kinds are eco, bison" >&2 ;;
    --format=*) echo "cfglint: unknown format '?': the formats are text, json" >&2 ;;
esac""")
    return f"{room}/cfglint"


def test_each_option_is_in_the_page_and_in_the_completions(room):
    program = says_usage(room)
    options = set(re.findall(r"(?<![\w-])--?[a-z][a-z-]*", re.sub(r"(?m)^(?!  ).*$", "", read(f"{room}/help"))))
    assert {"-h", "--kind", "--deny-warnings", "--stdin-name", "--version"} <= options and len(options) > 14, options
    words = set(re.findall(r"(?m)^  ([a-z][a-z-]*)  +", read(f"{room}/help")))
    page = manual.pages(program, "0.15.0")["cfglint.1"].decode().replace("\\-", "-")
    for it in options | words:
        assert re.search(rf"\\fB{it}\\fR", page), f"the page has no {it}"
    made = {name: text.decode() for name, text in manual.completions(program).items() if "cfglint" in name}
    assert len(made) == 3
    for name, text in made.items():
        for it in options:
            form = f"-l {it[2:]} | -s {it[1:]} ".replace("-l  |", "") if name.endswith(".fish") else it
            found = [f"-l {it[2:]} ", f"-l {it[2:]}\n"] if it.startswith("--") else [f"-s {it[1:]} "]
            assert any(word in text for word in (found if name.endswith(".fish") else [form])), f"{name} has no {it}"
        assert "eco bison" in text and "text json" in text, f"{name} lacks values"


def completed(file, *words):
    """What bash proposes for the last word."""
    listed = " ".join(f"'{it}'" for it in words)
    script = f". '{file}'; COMP_WORDS=({listed}); COMP_CWORD={len(words) - 1}; _{words[0]}; echo \"${{COMPREPLY[@]}}\""
    return subprocess.run(["bash", "-c", script], capture_output=True, text=True, check=True).stdout.split()


def test_completions_in_bash(room):
    for name, text in manual.completions(says_usage(room)).items():
        write(f"{room}/{os.path.basename(name)}.made", text.decode())
    for words, found in ((["--kin"], ["--kind"]), (["--kind", "e"], ["eco"]), (["--kind", "=", ""], ["eco", "bison"]),
                         (["--kind", "="], ["eco", "bison"]), (["--kind", "=", "b"], ["bison"]), (["a"], []),
                         (["--quiet", "--deny-"], ["--deny-warnings"]), (["--format", ""], ["text", "json"])):
        assert completed(f"{room}/cfglint.made", "cfglint", *words) == found, words
    for words, found in ((["ec"], ["eco"]), (["eco", "f"], ["firsts", "follows"]), (["eco", "lex", "a"], [])):
        assert completed(f"{room}/cfgtool.made", "cfgtool", *words) == found, words


def test_what_is_said_of_cfgtool(room):
    """packaging/cfgtool.txt names the kinds and the commands that bin/cfgtool does."""
    usage, head = manual.usage_of_cfgtool(), read(f"{ROOT}/bin/cfgtool")
    listed = lambda name: re.split(r", | or ", re.search(rf"{name} is ([^;.]*)", head.replace("\n# ", " "))[1])
    assert [it.head for it in usage.words_after(manual.KIND)] == [it for it in listed("KIND") if it]
    assert [it.head for it in usage.words_after(manual.COMMAND)] == [*listed("COMMAND"), "lex"]
    assert all(call in head for call in usage.calls), usage.calls
