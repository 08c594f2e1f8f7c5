"""Tests of bin/try."""
import os

from toy import Toy, end, until, write, write_script


def test_try_at_odd_paths(room):
    for name in ("a [b] c", "a\\b", "a*?"):
        toy = Toy(f"{room}/{name} room", name)
        words = [f"{toy.top}/bin/try", "cfglint", "x"]
        assert "compiling" in toy.runs("try", "lint 1", "low 1", "1 arguments: x", words=words)
        assert "compiling" not in toy.runs("try", "lint 1", words=words), f"what was compiled in {name} isn't kept"


def test_try_with_a_relative_temporary_folder(room):
    toy = Toy(room)
    os.mkdir(f"{room}/temporary")
    toy.runs("try", "lint 1", words=[f"{toy.top}/bin/try", "cfglint"], TMPDIR="temporary")


def test_try_keeps_no_half_program(room):
    toy = Toy(room)
    # a full disk, or a signal, while a file is moved to another file system
    write_script(f"{room}/bin/mv", 'for it; do file=$to to=$it; done\nhead -c 9 "$file" >"$to"; chmod +x "$to"; exit 1')
    path = f"{room}/bin:{toy.environment()['PATH']}"
    for _ in range(2):
        toy.runs("try", "lint 1", words=[f"{toy.top}/bin/try", "cfglint"], path=path)


def test_an_edit_during_the_compile(room):
    toy = Toy(room, sources={"cfglint_main/src/main.rt": "lint slow\n"})
    main, words = toy.source("cfglint_main/src/main.rt"), [f"{toy.top}/bin/try", "cfglint"]
    write(toy.source("low/src/lib.rt"), "edited low\n")
    begun = toy.begin("try", "cfglint")
    toy.wait()
    write(toy.source("low/src/lib.rt"), "low 2\n")
    toy.go_on()
    until(lambda: toy.is_waiting() or begun.poll() is not None, "it doesn't end")
    if toy.is_waiting():
        toy.go_on()
    status, out, said = end(begun)
    assert status == 0 and "low 2" in out, f"{status} {out} {said}"
    write(main, "lint 2\n")
    toy.runs("try", "low 2", "lint 2", words=words)


def test_try_of_a_refused_program(room):
    for text in ("refused\n", "fails\n"):
        toy = Toy(f"{room}/{text.strip()}", sources={"cfglint_main/src/main.rt": text})
        for _ in range(2):
            assert "cfglint_main doesn't compile, or doesn't run" in toy.refuses("try", "cfglint", lines=9)


def test_try_with_another_find(room):
    toy = Toy(room)
    write_script(f"{room}/bin/find", "exit 1")
    how = {"words": [f"{toy.top}/bin/try", "cfglint"], "path": f"{room}/bin:{toy.environment()['PATH']}"}
    toy.runs("try", "low 1", **how)
    write(toy.source("low/src/lib.rt"), "low 2\n")
    toy.runs("try", "low 2", **how)
