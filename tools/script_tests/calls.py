"""Tests of calls: what a newcomer reads, from where and how a program is called, and what that costs."""
import os
import re
import shutil
import signal
import subprocess

from toy import ROOT, Toy, end, path_without, read, write, write_script


def test_no_rt(room):
    toy = Toy(room)
    why, path = "there is no command rt on the path: it is in the folder bin of the Rattle kit", path_without(room)
    for name in ("cfglint", "cfgtool"):
        assert why in toy.refuses(name, path=path)
    assert why in toy.refuses("try", "cfglint", lines=2, path=path)


def test_another_rt(room):
    toy = Toy(room)
    for text in ("#!/bin/sh\nexit 0\n", "#!/usr/bin/env python3\nprint('hi')\n", "\0\1"):
        write(f"{room}/other/rt", text)
        os.chmod(f"{room}/other/rt", 0o755)
        said = toy.refuses("cfglint", path=f"{room}/other:{os.environ['PATH']}")
        assert "other/rt isn't the command rt of the Rattle kit" in said, said


def test_no_python(room):
    toy = Toy(room)
    path = path_without(room, "python3")
    os.symlink(f"{toy.kit}/bin/rt", f"{path}/rt")
    assert "there is no python3" in toy.refuses("cfglint", path=path)
    assert "there is no python3" in toy.refuses("try", "cfglint", lines=2, path=path)


def test_an_old_python(room):
    toy = Toy(room)
    write_script(f"{room}/bin/python3", "exit 1")
    said = toy.refuses("cfglint", path=f"{room}/bin:{toy.environment()['PATH']}")
    assert "there is no python3 (3.8 or later)" in said, said


def test_another_logic(room):
    toy = Toy(room)
    write(f"{toy.kit}/KIT-ID", "rattle-kit-x logic 0123456789abcdef\n")
    said = toy.runs("cfglint", "low 1")
    assert said.count("logic dac8208d650f15bf; this one is rattle-kit-x logic 0123456789abcdef") == 1, said
    assert toy.runs("cfglint", "low 1") == ""


def test_the_kit_is_that_of_the_readme(room):
    page, programs = read(f"{ROOT}/README.md"), read(f"{ROOT}/tools/modules/programs.py")
    kits, logic = re.search(r'KITS, LOGIC = "the Rattle kit (.*)", "(\w+)"', programs).groups()
    assert f"`{logic}`" in page, f"README doesn't name the logic {logic}"
    for it in kits.split(" or "):
        assert page.count(f"`{it}`") == 2, f"README doesn't name {it} twice"


def test_a_checkout_that_cannot_be_written(room):
    toy = Toy(room)
    os.chmod(room, 0o755)
    subprocess.run(["chmod", "-R", "a-w,a+rX", toy.top], check=True)
    drop = ["setpriv", "--reuid=65534", "--regid=65534", "--clear-groups"] if os.geteuid() == 0 else []
    try:
        os.makedirs(f"{room}/temporary", 0o777)
        os.chmod(f"{room}/temporary", 0o777)
        said = toy.refuses("cfglint", words=[*drop, f"{toy.top}/bin/cfglint"], TMPDIR=f"{room}/temporary")
        assert "crates/cfglint_main can't be written" in said, said
        words = [*drop, f"{toy.top}/bin/try", "cfglint"]
        said = toy.refuses("try", words=words, lines=2, TMPDIR=f"{room}/temporary")
        assert "crates/cfglint_main can't be written" in said, said
    finally:
        subprocess.run(["chmod", "-R", "u+w", toy.top], check=True)
    toy.runs("cfglint", "lint 1")
    subprocess.run(["chmod", "-R", "a-w", toy.top], check=True)
    try:
        toy.runs("cfglint", "lint 1", words=[*drop, f"{toy.top}/bin/cfglint"])
    finally:
        subprocess.run(["chmod", "-R", "u+w", toy.top], check=True)


def test_odd_paths(room):
    for name in ("a [b]", "a\\b", "a\n", "-a", "a'\"$(x)", "é"):
        toy = Toy(f"{room}/in {name}", name)
        for _ in range(2):
            toy.runs("cfglint", "lint 1", "2 arguments: a b ", words=[f"{toy.top}/bin/cfglint", "a b", ""])
            toy.runs("cfgtool", "tool 1", words=[f"./{name}/bin/cfgtool"], cwd=toy.room)
        assert toy.builds("cfglint_main") == 1
        path = f"{toy.kit}/bin:{path_without(room, 'python3')}"
        toy.runs("cfglint", "lint 1", words=[f"{toy.top}/bin/cfglint"], path=path)


def test_ways_to_call_it(room):
    toy = Toy(room)
    os.mkdir(f"{room}/links")
    os.symlink(f"{toy.top}/bin/cfglint", f"{room}/links/lint")
    os.symlink(f"{toy.top}/bin", f"{room}/bin")
    toy.runs("cfglint", "lint 1")
    ways = [(["../links/lint"], f"{room}/links"), ([f"{room}/bin/cfglint"], "/"), (["bin/cfglint"], toy.top)]
    ways += [(["./cfglint"], f"{toy.top}/bin"), (["sh", "cfglint"], f"{toy.top}/bin")]
    ways += [(["bash", "bin/cfglint"], toy.top)]
    for words, cwd in ways:
        assert toy.runs("cfglint", "lint 1", words=words, cwd=cwd, CDPATH="/:/tmp") == "", words
    assert toy.runs("cfglint", "lint 1", words=["cfglint"], path=f"{toy.top}/bin:{toy.environment()['PATH']}") == ""


def ignored_in(status):
    """The signals that a process ignores, by its file status in /proc, as a bit for each."""
    return int(re.search(r"^SigIgn:\s*(\w+)$", status, re.M)[1], 16)


def test_streams_and_statuses(room):
    toy = Toy(room)
    write(f"{room}/a.y", "text of a file\n")
    for _ in range(2):
        words = [f"{toy.top}/bin/cfglint", "-", "a.y"]
        toy.runs("cfglint", "2 arguments: - a.y", "given\ntext of a file\n", words=words, given=b"given\n")
    shutil.rmtree(toy.source("cfglint_main/out"))
    for _ in range(2):
        ignored = ignored_in(toy.call("cfglint", "/proc/self/status")[1])
        # what the caller of the tests ignores may be inherited, but not the two that Python itself ignores
        inherited = ignored_in(read("/proc/self/status")) & ~(1 << signal.SIGPIPE - 1 | 1 << signal.SIGXFSZ - 1)
        assert ignored & ~inherited == 0, f"the program ignores the signals {ignored:x}"
    begun = toy.begin("cfglint", "-", given=b"x" * 100)
    begun.stdout.close()
    begun.stdout = None
    begun.communicate(timeout=60)


def test_a_call_in_any_folder(room):
    toy = Toy(room)
    toy.runs("cfglint")
    write(f"{room}/in/a.y", "text of a file\n")
    how = {"words": ["../repository/bin/cfglint", "a.y"], "cwd": f"{room}/in"}
    assert toy.runs("cfglint", "low 1", "text of a file", **how) == ""
    write(toy.source("low/src/lib.rt"), "low 2\n")
    toy.runs("cfglint", "low 2", "text of a file", **how)
    if os.geteuid() == 0:
        # once it left this folder, it couldn't come back
        os.chmod(room, 0o755)
        os.chmod(f"{room}/in", 0o700)
        drop = ["setpriv", "--reuid=65534", "--regid=65534", "--clear-groups"]
        toy.runs("cfglint", "low 2", words=[*drop, f"{toy.top}/bin/cfglint"], cwd=f"{room}/in")


def test_rt_of_a_built_program(room):
    toy = Toy(room)
    toy.runs("cfglint")
    few = path_without(room, "python3")
    for it in (few, f"kit/bin:{few}", f":{room}/nowhere::{toy.kit}/bin:{few}", f"{'x' * 5000}:{few}"):
        assert toy.runs("cfglint", "low 1", path=it) == "", it
    write_script(f"{room}/rt", "exit 0")
    for it in (room, "", "."):
        said = toy.refuses("cfglint", path=f"{it}:{os.environ['PATH']}")
        assert "rt isn't the command rt of the Rattle kit" in said, said


def test_a_call_starts_nothing_but_the_program(room):
    toy = Toy(room)
    toy.runs("cfglint")
    os.mkfifo(f"{room}/pipe")
    begun = toy.begin("cfglint", "pipe")
    with open(f"{room}/pipe", "w", encoding="utf-8") as pipe:
        files = [os.readlink(f"/proc/{begun.pid}/fd/{it}") for it in os.listdir(f"/proc/{begun.pid}/fd")]
        pipe.write("text of a pipe\n")
    status, out, said = end(begun)
    assert status == 0 and "text of a pipe" in out, f"{status} {out} {said}"
    state = re.search(r"^state: (\d+) .*\) (.*)", out, re.M)
    assert int(state[1]) == begun.pid
    # the page faults of processes that it waited for
    assert state[2].split()[8] == "0", f"another process has run: {state[0]}"
    left = [it for it in files if it in (room, toy.top) or it.endswith("/list")]
    assert not left, f"the program has open files of others: {left}"


def processor_seconds(words, environment):
    """The processor seconds of a command, the least of several runs."""
    found, to_null = [], [(os.POSIX_SPAWN_OPEN, 1, "/dev/null", os.O_WRONLY, 0)]
    for _ in range(30):
        process = os.posix_spawnp(words[0], words, environment, file_actions=to_null)
        _, status, used = os.wait4(process, 0)
        assert status == 0
        found.append(used.ru_utime + used.ru_stime)
    return sorted(found)[len(found) // 4]


def test_a_call_takes_little(room):
    sources = {f"low/proofs/f{i}/{name}.antt": f"proof {i}\n" for i in range(860) for name in ("Answers", "Invariants")}
    toy = Toy(room, sources=sources)
    toy.runs("cfglint")
    own = processor_seconds([f"{toy.top}/crates/cfglint_main/out/cfglint_main"], toy.environment())
    took = processor_seconds([f"{toy.top}/bin/cfglint"], toy.environment()) - own
    # 5 milliseconds where no other processes compete
    assert took < 0.010, f"{1000 * took:.1f} milliseconds over the program's own"
