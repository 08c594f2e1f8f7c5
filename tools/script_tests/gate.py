"""Tests of the gate's scripts, .ci/run and tools/gate_runs, and of the programs that it leaves."""
import os
import re
import shutil
import subprocess

from toy import ROOT, Toy, path_without, read, write, write_script

CHECKS = ["pages check", "picture check", "wrong_bodies --check", "surface check", "reference PAGES",
          "expected.py check"]
RUNS = ["scripts_tests", "rows", "refuse", "long_rows", "original_rows", "fuzz 60", "real_runs", "samples"]


def gate_of(room):
    """The gate's script in a repository whose tools print how they are called, and an rt that prints what it counts."""
    for it in CHECKS:
        write_script(f"{room}/repository/tools/{it.split()[0]}", 'echo "${0##*/} $* in $PWD"')
    write_script(f"{room}/repository/tools/gate_runs", 'echo "gate_runs $* in $PWD"')
    write_script(f"{room}/repository/tools/build_program", 'shift\nexec "$@"')
    write_script(f"{room}/bin/rt", 'echo "1 passed, 0 failed"')
    os.makedirs(f"{room}/repository/.ci")
    shutil.copy(f"{ROOT}/.ci/run", f"{room}/repository/.ci/run")
    os.symlink(f"{room}/repository/.ci/run", f"{room}/gate")


def run_gate(room, path=None):
    """The status of the gate, its output, and what it writes to standard error. It leaves nothing."""
    os.makedirs(f"{room}/temporary", exist_ok=True)
    environment = {**os.environ, "PATH": path or f"{room}/bin:{os.environ['PATH']}", "TMPDIR": f"{room}/temporary"}
    ran = subprocess.run([f"{room}/gate"], cwd="/", env=environment, capture_output=True, text=True)
    assert os.listdir(f"{room}/temporary") == []
    return ran.returncode, re.sub(rf"{room}/temporary/\S+", "PAGES", ran.stdout), ran.stderr


def test_gate_by_a_symlink(room):
    gate_of(room)
    status, out, said = run_gate(room)
    checked = [f"{it} in {room}/repository" for it in CHECKS]
    lines = [*checked, "1 passed, 0 failed", f"gate_runs 1 0 in {room}/repository"]
    assert status == 0 and out.splitlines() == lines, f"{status} {out}{said}"
    for it in CHECKS:
        tool = f"{room}/repository/tools/{it.split()[0]}"
        text = read(tool)
        write(tool, "#!/bin/sh\nexit 1\n")
        assert run_gate(room)[0] == 1, f"{it} fails, and the gate passes"
        write(tool, text)
    for shown in ("must-fail a/b.edit: BAD EDIT: its text isn't there",
                  "must-fail a/b.edit: refused, as it must be (only by a limit of the prover, which gave no verdict)",
                  "must-fail a/b.edit: refused, as it must be (only because a proof file names what the edit took away)"):
        write_script(f"{room}/bin/rt", f'echo "{shown}"\necho "1 passed, 0 failed"')
        status, out, said = run_gate(room)
        assert f"gate_runs 1 1 in {room}/repository" in out.splitlines(), f"{status} {out}{said}"
    write_script(f"{room}/bin/rt", "echo")
    status, out, said = run_gate(room)
    assert status == 1 and "rt ci counted nothing" in said, f"{status} {out}{said}"


def test_gate_without_what_it_needs(room):
    gate_of(room)
    for missing in ("rt", "python3"):
        path = path_without(f"{room}/without {missing}", missing)
        if missing != "rt":
            os.symlink(f"{room}/bin/rt", f"{path}/rt")
        os.symlink(shutil.which("bash"), f"{path}/bash")
        status, out, said = run_gate(room, path)
        assert status and len(said.splitlines()) == 1 and f"no {missing}" in said, f"{out}{said}"


def test_what_the_gate_runs(room):
    for it in RUNS:
        write_script(f"{room}/tools/{it.split()[0]}", 'echo "${0##*/} $*"')
    shutil.copy(f"{ROOT}/tools/gate_runs", f"{room}/tools/gate_runs")
    run = lambda: subprocess.run([f"{room}/tools/gate_runs", "3", "0"], capture_output=True, text=True)
    ran = run()
    printed = [it.strip() for it in ran.stdout.splitlines() if not it.startswith("==")]
    assert ran.returncode == 0 and printed == [*RUNS, "11 passed, 0 failed"], ran
    for status, last in ((1, "10 passed, 1 failed"), (77, "10 passed, 0 failed, 1 skipped")):
        for it in RUNS:
            write_script(f"{room}/tools/{it.split()[0]}", f"exit {status}")
            ran = run()
            write_script(f"{room}/tools/{it.split()[0]}", ":")
            assert ran.returncode == (status == 1) and ran.stdout.splitlines()[-1] == last, f"{it}: {ran}"


def test_programs_of_the_gate(room):
    toy = Toy(room)
    out = toy.source("cfglint_main/out/cfglint_main.by-rattle")
    command = 'mkdir -p "${0%/*}"; printf "#!/bin/sh\\necho built by the gate\\n" >"$0"; chmod +x "$0"; '
    gate_of_toy = [f"{toy.top}/tools/build_program", "--gate", "sh", "-c"]
    gate = lambda then: toy.call("", words=[*gate_of_toy, command + then, out])
    assert gate("echo x; exit 3")[:2] == (3, "x\n")
    toy.runs("cfglint", "lint 1")
    shutil.rmtree(os.path.dirname(out))
    assert gate("true")[0] == 0
    assert toy.runs("cfglint", "built by the gate") == ""
    shutil.rmtree(os.path.dirname(out))
    assert gate(f"echo low 2 >'{toy.source('low/src/lib.rt')}'")[0] == 0
    toy.runs("cfglint", "low 2")
