"""Tests of the order in which a first build proves crates, by the seconds of docs/GATE.md: the prover is simulated."""
import os
import signal
import sys
import types
from importlib.machinery import SourceFileLoader

from toy import ROOT

# by how much a build may take longer than it needs at least
MOST = 1.15


class Crate:
    """A crate of crates.txt, and all below it, lowest first."""

    def __init__(self, name, uses):
        self.name, self.uses = name, list(dict.fromkeys(found for it in uses for found in [*it.uses, it]))

    def below(self):
        return self.uses


def crates():
    """The crates of the repository by name."""
    found = {}
    with open(f"{ROOT}/crates.txt", encoding="utf-8") as it:
        lines = [line.partition("#")[0].replace(":", " ").split() for line in it]
    for name, *uses in filter(None, lines):
        found[name] = Crate(name, [found[it] for it in uses if it in found])
    return found


class Proof:
    """A crate that is proved: since when, with how many jobs, and the processor seconds that are left."""

    def __init__(self, crate, jobs, niceness, now, left):
        self.crate, self.jobs, self.began, self.left = crate, jobs, now, left
        self.weight, self.ended = jobs * 1.25 ** -niceness, None

    def exception(self):
        return None


class Machine:
    """Processors, with enough memory, on which proofs are simulated. It takes the place of rt and of the pool."""

    def __init__(self, lanes, took):
        self.lanes, self.took, self.now, self.proofs = lanes, took, 0, []

    def processors(self):
        return self.lanes

    def free(self):
        return 2 ** 60

    def need(self, _):
        return 1

    def __enter__(self):
        return self

    def __exit__(self, *_):
        pass

    def at_work(self):
        return [it for it in self.proofs if it.ended is None]

    def submit(self, prove, rt, crate, jobs, niceness, progress):
        """Begins a proof. Four jobs take a quarter more processor time than one (docs/GATE.md)."""
        self.proofs.append(Proof(crate, jobs, niceness, self.now, self.took[crate.name] * (1 + (jobs - 1) / 12)))
        return self.proofs[-1]

    def shares(self):
        """How many processors each proof at work has, by their weights, and none more than it has jobs."""
        shares, free = {}, self.lanes
        waiting = sorted(self.at_work(), key=lambda it: it.jobs / it.weight)
        while waiting:
            weight, it = sum(it.weight for it in waiting), waiting.pop(0)
            shares[it] = min(it.jobs, free * it.weight / weight)
            free -= shares[it]
        return shares

    def wait(self, running, **_):
        """Goes on until the first proof ends."""
        shares = self.shares()
        took, first = min(((it.left / share, it) for it, share in shares.items()), key=lambda it: it[0])
        self.now += took
        for it, share in shares.items():
            it.left -= took * share
        first.ended = self.now
        return types.SimpleNamespace(done=[first])


def loaded():
    """tools/build_program as a module, which leaves the path and signals as they are."""
    made = types.ModuleType("build_program")
    loader = SourceFileLoader("build_program", f"{ROOT}/tools/build_program")
    made.__file__, path, interrupted = loader.path, list(sys.path), signal.signal(signal.SIGINT, signal.SIG_IGN)
    loader.exec_module(made)
    sys.path[:] = path
    signal.signal(signal.SIGINT, interrupted)
    return made


# (tests run in threads, which may not heed signals)
BUILD = loaded()


def simulated(program, lanes):
    """The machine after a first build of the libraries of a program, with the longest path from each."""
    listed = [*program.below(), program]
    took = BUILD.seconds(listed)
    machine, paths = Machine(lanes, took), BUILD.paths_above(listed, took)
    BUILD.ThreadPoolExecutor, BUILD.wait = lambda: machine, machine.wait
    BUILD.Lanes(machine, program.below(), took, paths, None).prove_all()
    return machine, paths


def stop_if_held_back(machine, paths):
    """No crate could begin and waits while a processor is without a crate, or while one on a shorter path begins."""
    ended = {it.crate: it.ended for it in machine.proofs}
    for it in machine.proofs:
        ready = max((ended[below] for below in it.crate.below()), default=0)
        moments = {ready, *(other.began for other in machine.proofs), *ended.values()}
        for moment in sorted(at for at in moments if ready <= at < it.began):
            at_work = [other for other in machine.proofs if other.began <= moment < other.ended]
            assert len(at_work) == machine.lanes, f"{it.crate.name} could begin at {moment:.0f}, and waits"
            begin = [other.crate.name for other in at_work if other.began == moment]
            least = min((paths[name] for name in begin), default=paths[it.crate.name])
            assert least >= paths[it.crate.name], f"{it.crate.name} waits, and one of {begin} begins"


def stop_if_late(machine, paths, program):
    """It ends near to what the processors need at least, and to the longest path if each crate had three times the
    speed."""
    needed = sum(machine.took[it.name] for it in program.below()) / machine.lanes
    longest = max(paths[it.name] for it in program.below()) - machine.took[program.name]
    ended = f"{program.name} with {machine.lanes} processors: after {machine.now:.0f}, of at least {needed:.0f}"
    assert machine.now <= MOST * max(needed, longest / 3), ended


def test_no_crate_waits_for_one_that_was_held_back(room):
    found = crates().values()
    programs = [it for it in found if os.path.isfile(f"{ROOT}/crates/{it.name}/src/main.rt")]
    assert len(programs) > 1
    for program in programs:
        for lanes in (1, 2, 4):
            machine, paths = simulated(program, lanes)
            assert sorted(it.crate.name for it in machine.proofs) == sorted(it.name for it in program.below())
            stop_if_held_back(machine, paths)
            stop_if_late(machine, paths, program)
