"""Tests of builds: two at once, ended ones, those whose lines nobody reads, and what is damaged."""
import glob
import os
import shutil
import signal
import time

from toy import Toy, end, is_running, path_without, read, until, write


def two_builds(room, first, second):
    """Builds two programs at once, the second of which waits for the first."""
    toy = Toy(room, sources={"low/src/lib.rt": "low slow\n"})
    one = toy.begin(first)
    toy.wait()
    two = toy.begin(second)
    time.sleep(1)
    toy.go_on()
    until(lambda: toy.is_waiting() or one.poll() is not None and two.poll() is not None, "they don't end")
    is_proved_again = toy.is_waiting()
    if is_proved_again:
        toy.go_on()
    (status, out, said), (other_status, other_out, other_said) = end(one), end(two)
    assert (status, other_status) == (0, 0), f"{said}{other_said}"
    assert "low slow" in out and "low slow" in other_out
    assert f"{second}: waiting for another build in this repository to end\n" in other_said, other_said
    assert toy.builds("low") == 1 and not is_proved_again, "the library is proved twice"
    return toy


def test_two_programs_at_once(room):
    two_builds(room, "cfgtool", "cfglint")


def test_one_program_twice_at_once(room):
    toy = two_builds(room, "cfglint", "cfglint")
    assert toy.builds("cfglint_main") == 1, "the program is built twice"


def test_an_unproved_program_during_a_build(room):
    toy = Toy(room, sources={"cfgtool_main/src/main.rt": "tool slow\n"})
    begun = toy.begin("cfgtool")
    toy.wait()
    assert "nothing is proved" in toy.runs("try", "lint 1", words=[f"{toy.top}/bin/try", "cfglint"])
    assert begun.poll() is None
    toy.go_on()
    assert end(begun)[0] == 0


def end_by(room, number, name="cfglint", arguments=()):
    """Ends a build by a signal. The next call works."""
    toy = Toy(room, sources={"low/src/lib.rt": "low slow\n"})
    begun = toy.begin(name, *arguments)
    toy.wait()
    prover = int(read(f"{toy.kit}/waiting"))
    os.kill(begun.pid, number)
    status, out, said = end(begun)
    assert status == -number, f"status {status}: {said}"
    assert "Traceback" not in said and said.count(signal.Signals(number).name) == 1, said
    until(lambda: not is_running(prover), "the prover goes on", 5)
    toy.go_on()
    write(toy.source("low/src/lib.rt"), "low 2\n")
    assert toy.call(name, *arguments)[0] == 0
    left = [it for it in os.listdir(room) if it.startswith(("try-", "rt-"))]
    assert not left, f"left over: {left}"


def test_a_terminated_build(room):
    end_by(room, signal.SIGTERM)


def test_an_interrupted_build(room):
    end_by(room, signal.SIGINT)


def test_a_build_that_hangs_up(room):
    end_by(room, signal.SIGHUP)


def test_a_terminated_compile(room):
    end_by(room, signal.SIGTERM, "try", ["cfglint"])


def test_a_killed_build(room):
    toy = Toy(room, sources={"low/src/lib.rt": "low slow\n"})
    begun = toy.begin("cfglint")
    toy.wait()
    prover = int(read(f"{toy.kit}/waiting"))
    begun.kill()
    until(lambda: not is_running(prover), "the prover goes on", 5)
    toy.go_on()
    write(toy.source("low/src/lib.rt"), "low 2\n")
    toy.runs("cfglint", "low 2")


def test_no_file_takes_the_place_of_a_closed_stream(room):
    toy = Toy(room, sources={"low/src/lib.rt": "low slow\n"})
    begun = toy.begin("cfglint", words=["sh", "-c", "exec bin/cfglint <&- 2>&-"], cwd=toy.top)
    toy.wait()
    for it in (0, 2):
        assert os.readlink(f"/proc/{begun.pid}/fd/{it}") == "/dev/null"
    toy.go_on()
    assert end(begun)[0] == 0


def test_a_build_whose_lines_nobody_reads(room):
    toy = Toy(room)
    for it in ("bin/cfglint x 2>&-", "bin/cfglint x 2>/dev/full", "bin/cfglint x 2>&1 >&3 | true",
               "bin/cfglint x <&- 2>&-", "bin/try cfglint x 2>&-", "bin/try cfglint x 2>/dev/full"):
        for crate in ("low", "cfglint_main"):
            shutil.rmtree(toy.source(f"{crate}/out"), ignore_errors=True)
        words = ["bash", "-c", f"set -o pipefail; {{ {it}; }} 3>&1"]
        toy.runs("cfglint", "low 1", "1 arguments: x", words=words, cwd=toy.top)


def test_a_program_of_no_bytes(room):
    toy = Toy(room)
    for words in ([f"{toy.top}/bin/try", "cfglint"], [f"{toy.top}/bin/cfglint"]):
        toy.runs("cfglint", "lint 1", words=words)
        for at, _, files in os.walk(f"{toy.top}/crates/cfglint_main/out"):
            for it in files:
                with open(f"{at}/{it}", "w", encoding="utf-8"):
                    pass
        toy.runs("cfglint", "lint 1", words=words)


def test_a_damaged_program(room):
    toy = Toy(room)
    toy.runs("cfglint")
    kept = f"{toy.top}/crates/cfglint_main/out/proved/{read(f'{toy.top}/crates/cfglint_main/out/proved/now').strip()}"
    text = read(f"{kept}/program")
    for damage in (
            lambda: write(f"{kept}/program", text.replace("lint 1", "evil 1")),
            lambda: write(f"{kept}/program", ""),
            lambda: os.chmod(f"{kept}/program", 0o644),
            lambda: (os.remove(f"{kept}/program"), os.mkdir(f"{kept}/program")),
            lambda: (shutil.rmtree(kept), write(kept, ""))):
        damage()
        assert "proving" in toy.runs("cfglint", "lint 1")
        assert toy.runs("cfglint", "lint 1") == ""


def test_what_runs_an_unchanged_program_is_damaged(room):
    toy = Toy(room)
    toy.runs("cfglint")
    kept = f"{toy.top}/crates/cfglint_main/out/proved/{read(f'{toy.top}/crates/cfglint_main/out/proved/now').strip()}"
    path = f"{toy.kit}/bin:{path_without(room, 'python3')}"
    for damage in (
            lambda it: os.truncate(it, 0),
            lambda it: os.chmod(it, 0o644),
            os.remove,
            lambda it: (os.remove(it), os.mkdir(it))):
        damage(f"{kept}/run_unchanged")
        assert toy.runs("cfglint", "lint 1") == ""
        assert toy.runs("cfglint", "lint 1", path=path) == "", "each call looks for what the program is made of"
    os.truncate(f"{kept}/list", 40)
    assert toy.runs("cfglint", "lint 1") == toy.runs("cfglint", "lint 1", path=path) == ""
    os.chmod(f"{kept}/program", 0o644)
    assert "proving" in toy.runs("cfglint", "lint 1")
    with open(f"{kept}/list", "rb") as it:
        length_of_first = int.from_bytes(it.read(38)[36:], "little")
    os.truncate(f"{kept}/list", 8 + length_of_first)
    write(toy.source("low/src/lib.rt"), "low 2\n")
    toy.runs("cfglint", "low 2")


def test_damage(room):
    toy = Toy(room)
    out, library = f"{toy.top}/crates/cfglint_main/out", f"{toy.top}/crates/low/out"
    path = f"{toy.kit}/bin:{path_without(room, 'python3')}"
    toy.runs("cfglint", "low 1")
    for number, damage in enumerate((
            lambda: write(f"{library}/rlib/low.rlib/format", ""),
            lambda: write(f"{library}/rlib/low.rlib/format", "low of others\n"),
            lambda: os.remove(f"{library}/rlib/low.rlib/format"),
            lambda: write(f"{library}/rlib/over", "\0\1"),
            lambda: open(f"{library}/rlib/stamp", "wb").write(b"\xff\xfe"),
            lambda: (shutil.rmtree(f"{library}/rlib"), write(f"{library}/rlib", "")),
            lambda: (shutil.rmtree(library), write(library, "")),
            lambda: (shutil.rmtree(out), write(out, "")),
            lambda: write(f"{out}/proved/now", "\0\xff"),
            lambda: (os.remove(f"{out}/proved/now"), os.mkdir(f"{out}/proved/now")),
            lambda: [write(it, "") for it in glob.glob(f"{glob.escape(out)}/proved/*/list")],
            lambda: [os.truncate(it, 100) for it in glob.glob(f"{glob.escape(out)}/proved/*/list")],
            lambda: (shutil.rmtree(f"{out}/proved"), write(f"{out}/proved", "")),
            # a library that rt built, so nothing says what it has
            lambda: (os.remove(f"{library}/rlib/over"), write(f"{library}/rlib/low.rlib/format", "")))):
        damage()
        write(toy.source("cfglint_main/src/main.rt"), f"lint of damage {number}\n")
        toy.runs("cfglint", "low 1", f"lint of damage {number}")
        said = toy.runs("cfglint", f"lint of damage {number}", path=path)
        assert said == "", f"after damage {number} each call builds"


def test_no_page_of_times(room):
    toy = Toy(room)
    os.remove(f"{toy.top}/docs/GATE.md")
    toy.runs("cfglint", "low 1")
