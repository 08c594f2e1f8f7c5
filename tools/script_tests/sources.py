"""Tests that the program that runs is made of the present sources, and that none is kept before all checks of it have
passed."""
import os
import shutil
import subprocess

from toy import LISTED, Toy, end, read, until, write


def test_an_edit_during_the_build(room):
    toy = Toy(room, sources={"low/src/lib.rt": "low 1 slow\n"})
    begun = toy.begin("cfglint")
    toy.wait()
    write(toy.source("low/src/lib.rt"), "low 2\n")
    toy.go_on()
    status, out, said = end(begun)
    assert status == 0 and "low 2" in out and "low 1" not in out, f"{status} {out} {said}"
    assert "changed while it was proved: building again" in said, said
    toy.runs("cfglint", "low 2")


def test_an_edit_of_a_proved_library_during_the_build(room):
    toy = Toy(room, sources={"cfglint_main/src/main.rt": "lint slow\n"})
    begun = toy.begin("cfglint")
    toy.wait()
    write(toy.source("low/specs/Lib.antt"), "other specs\n")
    toy.go_on()
    until(lambda: toy.is_waiting() or begun.poll() is not None, "it doesn't end")
    assert toy.is_waiting(), f"it isn't built again: {end(begun)}"
    toy.go_on()
    status, out, said = end(begun)
    assert status == 0 and "other specs" in out, f"{status} {out} {said}"


def test_an_edit_that_is_put_back_during_the_build(room):
    toy = Toy(room, sources={"low/src/lib.rt": "low slow\n", "cfglint_main/src/main.rt": "lint slow\n"})
    main = toy.source("cfglint_main/src/main.rt")
    begun = toy.begin("cfglint")
    toy.wait()
    shutil.copy2(main, f"{room}/main.rt")
    write(main, "evil slow\n")
    toy.go_on()
    until(lambda: toy.is_waiting() and toy.builds("cfglint_main"), "the program isn't built")
    os.rename(f"{room}/main.rt", main)
    toy.go_on()
    until(lambda: toy.is_waiting() or begun.poll() is not None, "it doesn't end")
    if toy.is_waiting():
        toy.go_on()
    status, out, said = end(begun)
    assert status == 0 and "evil" not in out, f"{status} {out} {said}"


def put_back(room, by):
    """Has a source put back with an older time after a build, in this way."""
    toy = Toy(room)
    source = toy.source("low/src/lib.rt")
    os.mkdir(f"{room}/older")
    shutil.copy2(source, f"{room}/older/lib.rt")
    os.utime(f"{room}/older/lib.rt", (10**9, 10**9))
    write(source, "low 2\n")
    toy.runs("cfglint", "low 2")
    subprocess.run(by(f"{room}/older", source), check=True)
    assert read(source) == "low 1\n" and os.stat(source).st_mtime == 10**9
    toy.runs("cfglint", "low 1")


def test_a_source_put_back_by_cp(room):
    put_back(room, lambda older, source: ["cp", "-p", f"{older}/lib.rt", source])


def test_a_source_put_back_by_mv(room):
    put_back(room, lambda older, source: ["mv", f"{older}/lib.rt", source])


def test_a_source_put_back_by_tar(room):
    by_tar = 'tar c -C "$1" lib.rt | tar x -C "${2%/*}"'
    put_back(room, lambda older, source: ["sh", "-c", by_tar, "", older, source])


def test_a_folder_put_back_by_mv(room):
    toy = Toy(room)
    folder = toy.source("low/specs")
    shutil.copytree(folder, f"{room}/specs")
    write(f"{folder}/Lib.antt", "other specs\n")
    toy.runs("cfglint", "other specs")
    shutil.rmtree(folder)
    os.rename(f"{room}/specs", folder)
    toy.runs("cfglint", "specs of low")


def test_an_edit_with_the_size_and_the_time_of_the_old_text(room):
    toy = Toy(room)
    source = toy.source("low/src/lib.rt")
    times = os.stat(source)
    toy.runs("cfglint", "low 1")
    write(source, "low 2\n")
    os.utime(source, ns=(times.st_atime_ns, times.st_mtime_ns))
    toy.runs("cfglint", "low 2")


def test_a_deleted_source(room):
    toy = Toy(room, sources={"low/proofs/other/Answers.antt": "other proof\n"})
    toy.runs("cfglint", "other proof")
    os.remove(toy.source("low/proofs/other/Answers.antt"))
    status, out, said = toy.call("cfglint")
    assert status == 0 and "other proof" not in out, f"{status} {out} {said}"


def test_a_deleted_folder_of_sources(room):
    toy = Toy(room)
    toy.runs("cfglint", "specs of low", "proof of low")
    for part, text in (("specs", "specs of low"), ("proofs", "proof of low")):
        shutil.rmtree(toy.source(f"low/{part}"))
        status, out, said = toy.call("cfglint")
        assert status == 0 and text not in out, f"{status} {out} {said}"


def test_an_added_folder_of_sources(room):
    toy = Toy(room)
    toy.runs("cfglint")
    write(toy.source("cfglint_main/specs/out/New.antt"), "new specs\n")
    os.utime(toy.source("cfglint_main/specs/out/New.antt"), (10**9, 10**9))
    toy.runs("cfglint", "new specs")
    write(toy.source("cfglint_main/specs/out/New.antt"), "newer specs\n")
    os.utime(toy.source("cfglint_main/specs/out/New.antt"), (10**9, 10**9))
    toy.runs("cfglint", "newer specs")


def test_another_kit(room):
    toy = Toy(room)
    toy.runs("cfglint")
    write(f"{toy.kit}/WHAT", "another\n")
    os.utime(f"{toy.kit}/WHAT", (10**9, 10**9))
    toy.runs("cfglint")
    assert (toy.builds("low"), toy.builds("cfglint_main")) == (2, 2), read(f"{toy.kit}/builds")


def test_a_kit_at_another_place_on_the_path(room):
    toy = Toy(room)
    toy.runs("cfglint")
    os.rename(toy.kit, f"{room}/first")
    toy.make_kit()
    write(f"{toy.kit}/KIT-ID", "rattle-kit-x logic dac8208d650f15bf\n")
    toy.runs("cfglint")
    assert toy.builds("cfglint_main") == 1, "the other kit builds nothing"


def test_other_handles(room):
    toy = Toy(room, sources={"cfglint_main/src/main.rt": "socket\n"})
    handles, net = f"{toy.top}/HANDLES", "Handles allowed: Net.\n"
    write(handles, net)
    toy.runs("cfglint", "socket")
    write(handles, "Handles allowed: none.\n")
    os.utime(handles, (10**9, 10**9))
    assert "cfglint_main is not proved" in toy.refuses("cfglint", lines=9)
    write(handles, net)
    toy.runs("cfglint", "socket")
    os.remove(handles)
    assert "cfglint_main is not proved" in toy.refuses("cfglint", lines=9)


def test_other_lines_of_crates_txt(room):
    toy = Toy(room, sources={"other/src/lib.rt": "other 1\n"})
    toy.runs("cfglint")
    write(f"{toy.top}/crates.txt", LISTED + "other:\n")
    toy.runs("cfglint", "low 1")
    assert toy.builds("cfglint_main") == 1, "a crate that the program doesn't depend on has it built again"
    write(f"{toy.top}/crates.txt", "low:\nother:\ncfglint_main: low other\ncfgtool_main: low\n")
    toy.runs("cfglint", "other 1")
    write(f"{toy.top}/crates.txt", "low:\nother:\ncfglint_main: low other json\ncfgtool_main: low\n")
    toy.runs("cfglint", "other 1")
    assert toy.builds("cfglint_main") == 3, "a library of the kit that it depends on since doesn't count"


def test_other_tools_that_build(room):
    toy = Toy(room)
    toy.runs("cfglint")
    for number, name in enumerate(("build_program", "modules/programs.py", "modules/run_unchanged.c"), 2):
        tool = f"{toy.top}/tools/{name}"
        write(f"{room}/new", read(tool) + "\n")
        shutil.copymode(tool, f"{room}/new")
        os.replace(f"{room}/new", tool)
        toy.runs("cfglint", "low 1")
        assert toy.builds("cfglint_main") == number, f"another {name} doesn't count"


def test_touched_sources_need_no_proof(room):
    toy = Toy(room)
    toy.runs("cfglint")
    os.utime(toy.source("low/src/lib.rt"))
    toy.runs("cfglint", "low 1")
    subprocess.run(["cp", "-r", toy.top, f"{room}/copy"], check=True)
    toy.runs("cfglint", "low 1", words=[f"{room}/copy/bin/cfglint"])
    assert toy.builds("low") == toy.builds("cfglint_main") == 1, read(f"{toy.kit}/builds")


def test_going_back_needs_no_proof(room):
    toy = Toy(room)
    toy.runs("cfglint", "low 1")
    for number in (2, 1):
        write(toy.source("low/src/lib.rt"), f"low {number}\n")
        toy.runs("cfglint", f"low {number}")
    assert toy.builds("cfglint_main") == 2, "the first program isn't kept"


def test_a_program_with_a_refused_call(room):
    toy = Toy(room, sources={"cfglint_main/src/main.rt": "socket\n"})
    for _ in range(2):
        assert "cfglint_main is not proved" in toy.refuses("cfglint", lines=9)


def test_a_program_that_fails(room):
    toy = Toy(room, sources={"cfglint_main/src/main.rt": "fails\n"})
    for _ in range(2):
        assert "cfglint_main doesn't run" in toy.refuses("cfglint", lines=9)


def test_a_refused_edit(room):
    toy = Toy(room)
    toy.runs("cfglint")
    write(toy.source("low/src/lib.rt"), "refused\n")
    for _ in range(2):
        assert "low is not proved" in toy.refuses("cfglint", lines=9)


LOW = """//! A library with one function.
#![tactic(auto)]

ghost use Rattle.std.specs.Prelude.{◌≡◌};

/// The number that the program prints.
pub fn number() -> u32
    ensures { result ≡ 41 }
{
    41
}
"""
MAIN = """//! Prints the library's number.
#![tactic(auto)]

use std::io;

fn main(rt: HostRuntime) -> io::Result<()> {
    println!(rt; "{}", low::number())
}
"""


def test_the_real_kit(room):
    toy = Toy(room)
    shutil.rmtree(f"{toy.top}/crates")
    write(toy.source("low/src/lib.rt"), LOW)
    for it in ("cfglint", "cfgtool"):
        write(toy.source(f"{it}_main/src/main.rt"), MAIN)
    toy.runs("cfglint", "41\n", path=os.environ["PATH"])
    assert toy.runs("cfglint", "41\n", path=os.environ["PATH"]) == ""
    write(toy.source("low/src/lib.rt"), LOW.replace("    41\n", "    42\n"))
    assert "low is not proved" in toy.refuses("cfglint", lines=99, path=os.environ["PATH"])
