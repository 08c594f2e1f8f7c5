"""Tests of bin/install."""
import glob
import os
import shutil
import signal
import subprocess

from toy import Toy, end, path_without, read, until, write


def installs(toy, *folder, status=0, into=None, **more):
    """Installs the programs, and returns what is said, of which the last lines are of standard output."""
    ended, out, said = toy.call("install", *folder, **more)
    assert ended == status, f"status {ended}, not {status}: {out} {said}"
    assert "Traceback" not in said, said
    if status == 0:
        into = into or folder[0]
        assert out.splitlines()[0] == f"cfgtool and cfglint are in {into}", out
        assert sorted(os.listdir(into)) == ["cfglint", "cfgtool"], os.listdir(into)
    else:
        assert out == "", out
    return said + out


def prints(program, *texts):
    """Runs an installed program, which has to print these texts."""
    ended = subprocess.run([program, "x y"], cwd="/", capture_output=True, text=True, timeout=60)
    assert ended.returncode == 0 and all(it in ended.stdout for it in texts), f"{ended}"


def test_installed_programs_run_alone(room):
    toy = Toy(room)
    installs(toy, f"{room}/new/a folder")
    shutil.rmtree(toy.top)
    shutil.rmtree(toy.kit)
    prints(f"{room}/new/a folder/cfglint", "low 1", "lint 1", "1 arguments: x y")
    prints(f"{room}/new/a folder/cfgtool", "low 1", "tool 1")
    assert os.stat(f"{room}/new/a folder/cfglint").st_mode & 0o777 == 0o755


def test_installing_proves_what_changed(room):
    toy, to = Toy(room), f"{room}/to"
    toy.runs("cfglint")
    assert "cfgtool: proving" in installs(toy, to)
    assert toy.builds("low") == toy.builds("cfglint_main") == toy.builds("cfgtool_main") == 1
    assert "proving" not in installs(toy, to)
    write(toy.source("low/src/lib.rt"), "low 2\n")
    prints(f"{to}/cfglint", "low 1")
    assert "cfglint: proving" in installs(toy, to)
    prints(f"{to}/cfglint", "low 2")
    prints(f"{to}/cfgtool", "low 2")
    assert toy.runs("cfglint", "low 2") == "" and toy.builds("low") == 2


def test_what_is_not_proved_is_not_installed(room):
    toy, to = Toy(room), f"{room}/to"
    write(toy.source("cfglint_main/src/main.rt"), "refused\n")
    assert "install: the program can't be built: cfglint_main is not proved" in installs(toy, to, status=126)
    assert not os.path.exists(to)
    write(toy.source("cfglint_main/src/main.rt"), "lint 1\n")
    installs(toy, to)
    for name, text in (("cfglint_main/src/main.rt", "fails\n"), ("cfgtool_main/src/main.rt", "refused\n")):
        write(toy.source(name), text)
        installs(toy, to, status=126)
        prints(f"{to}/cfglint", "lint 1")
        prints(f"{to}/cfgtool", "tool 1")


def test_an_edit_while_it_installs(room):
    toy, to = Toy(room, sources={"cfglint_main/src/main.rt": "lint slow\n"}), f"{room}/to"
    begun = toy.begin("install", to)
    toy.wait()
    write(toy.source("low/src/lib.rt"), "low 2\n")
    toy.go_on()
    until(lambda: toy.is_waiting() or begun.poll() is not None, "it doesn't end")
    if toy.is_waiting():
        toy.go_on()
    assert end(begun)[0] == 0
    prints(f"{to}/cfglint", "low 2")
    prints(f"{to}/cfgtool", "low 2")


def test_an_older_program_is_replaced_in_one_step(room):
    toy, to = Toy(room), f"{room}/to"
    installs(toy, to)
    os.link(f"{to}/cfglint", f"{room}/running")
    os.remove(f"{to}/cfgtool")
    os.symlink(toy.source("low/src/lib.rt"), f"{to}/cfgtool")
    write(toy.source("cfglint_main/src/main.rt"), "lint 2\n")
    installs(toy, to)
    prints(f"{to}/cfglint", "lint 2")
    prints(f"{to}/cfgtool", "tool 1")
    assert "lint 1" in read(f"{room}/running"), "the older program is written over"
    assert read(toy.source("low/src/lib.rt")) == "low 1\n", "a file that a link leads to is written over"


def test_a_folder_that_cannot_be_written(room):
    toy = Toy(room)
    write(f"{room}/file", "text\n")
    for it in (f"{room}/file", f"{room}/file/below"):
        assert installs(toy, it, status=1) == f"install: {it} can't be written\n", it
    if os.geteuid() == 0:
        os.chmod(room, 0o755)
        drop = ["setpriv", "--reuid=65534", "--regid=65534", "--clear-groups"]
        for it in (room, f"{room}/new"):
            words = [*drop, f"{toy.top}/bin/install", it]
            assert installs(toy, status=1, words=words) == f"install: {it} can't be written\n", it
    assert not os.path.exists(f"{toy.kit}/builds"), "it is proved first"
    os.makedirs(f"{room}/to/cfglint/kept")
    assert installs(toy, f"{room}/to", status=1).endswith(f"install: {room}/to/cfglint is a folder\n")
    assert os.listdir(f"{room}/to") == ["cfglint"] and os.listdir(f"{room}/to/cfglint") == ["kept"]
    # the system doesn't say before that nothing can be made there
    assert "install: /proc/none can't be written" in installs(toy, "/proc/none", status=1)


def test_the_scripts_of_the_repository_are_not_replaced(room):
    toy = Toy(room)
    os.symlink(f"{toy.top}/bin", f"{room}/link")
    for it in (f"{toy.top}/bin", f"{room}/link"):
        assert "has the scripts of this repository" in installs(toy, it, status=1)
    assert read(f"{toy.top}/bin/cfglint").startswith("#!/bin/sh\n# cfglint")


def test_where_it_installs(room):
    toy, home = Toy(room), f"{room}/home"
    assert installs(toy, into=f"{home}/.local/bin", HOME=home).endswith("/.local/bin isn't on the path\n")
    path = f"{toy.environment()['PATH']}:{home}/.local/../.local/bin"
    assert "path" not in installs(toy, into=f"{home}/.local/bin", HOME=home, path=path)
    os.symlink(f"{toy.top}/bin/install", f"{room}/link")
    os.mkdir(f"{room}/in")
    installs(toy, into=f"{room}/in/to", words=["../link", "to"], cwd=f"{room}/in")


def test_the_usage_of_install(room):
    toy = Toy(room)
    for it in ("-h", "--help"):
        status, out, said = toy.call("install", it)
        assert (status, said) == (0, "") and out.startswith("install [--from ARCHIVE] [FOLDER]\n"), f"{out} {said}"
    for it in (["--prefix=/x"], ["a", "b"], [""], ["--from"], ["--from", ""], ["--from", "a", ""],
               ["--from", "a", "-b"], ["--from", "a", "b", "c"], ["a", "--from", "b"]):
        status, out, said = toy.call("install", *it)
        assert (status, out) == (2, "") and said.startswith("install [--from ARCHIVE]"), f"{it}: {status} {out} {said}"
    assert sorted(os.listdir(room)) == ["kit", "repository"], os.listdir(room)


def test_installing_without_rt_or_python(room):
    toy = Toy(room)
    few = path_without(room)
    assert "there is no command rt on the path" in installs(toy, f"{room}/to", status=126, path=few)
    os.remove(f"{few}/python3")
    said = installs(toy, f"{room}/to", status=126, path=few)
    assert said.startswith("install: the program can't be built: there is no python3"), said


def test_installing_is_stopped(room):
    toy, to = Toy(room, sources={"low/src/lib.rt": "low slow\n"}), f"{room}/to"
    begun = toy.begin("install", to)
    toy.wait()
    os.kill(begun.pid, signal.SIGTERM)
    status, out, said = end(begun)
    assert (status, out) == (-signal.SIGTERM, "") and said.endswith("install: stopped by SIGTERM\n"), said
    assert not os.path.exists(to) and not glob.glob(f"{room}/*/.install-*")
