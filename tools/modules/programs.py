"""What a program of this repository is made of, and where a built one is kept. tools/run_program and
tools/build_program use it.

A program is kept in crates/NAME/out/proved/SUM, or in out/tried/SUM if it is unproved. SUM is the checksum of a list of
checksums, of all that it was made of: the sources of its crate and of those below it, by name and byte, what crates.txt
says of these crates, HANDLES, the kit, and the tools that build it. It is put there in one step, after every check of
it. Beside it are its own checksum, and a list of the times, sizes and inodes of all these files and their folders.
While that list is right, tools/modules/run_unchanged.c runs the program at once. If anything differs, the checksum
decides. The file out/proved/now has the SUM of the program that ran last. The program of rows is kept so in
rows/out/tried.
"""
import fcntl
import hashlib
import importlib.machinery
import importlib.util
import os
import shutil
import signal
import struct
import subprocess
import time

ROOT = os.path.dirname(os.path.dirname(os.path.dirname(os.path.realpath(__file__))))
# those that people call, each made by a crate of its own
PROGRAMS = ("cfgtool", "cfglint")
KITS, LOGIC = "the Rattle kit rattle-kit-13b or rattle-kit-13f", "dac8208d650f15bf"
TOOLS = [f"tools/{it}" for it in ("build_program", "modules/programs.py", "modules/run_unchanged.c")]
PARTS = ("src", "specs", "proofs")
# how many programs of a crate are kept, so that going back to an earlier state of the sources needs no proof
KEPT = 4
# the status of tools/modules/run_unchanged.c. It isn't 0, with which a damaged program of no bytes ends
UNCHANGED = 86


class Stopped(Exception):
    """Why a program can't be built."""


def stop(why):
    raise Stopped(why)


def say(text, to=2):
    """Writes a line to standard error, if it takes one. Where nobody reads it, a program is built all the same."""
    try:
        with open(to, "wb", closefd=False) as it:
            it.write(os.fsencode(f"{text}\n"))
    except OSError:
        pass


def hold_closed_streams():
    """Keeps other files out of the places of closed streams. For the program that is run they are closed again."""
    for it in range(3):
        try:
            os.fstat(it)
        except OSError:
            os.open(os.devnull, os.O_RDWR)


class Kit:
    """The kit of the command rt that the path leads to."""

    def __init__(self):
        found = shutil.which("rt")
        if not found:
            raise Stopped(f"there is no command rt on the path: it is in the folder bin of {KITS} (README, 'Run it')")
        self.command = os.path.realpath(found)
        self.folder = os.path.dirname(os.path.dirname(self.command))
        for it in ("KIT-ID", "WHAT", "bin/rtlib.py", "bin/rattle"):
            if not os.path.isfile(f"{self.folder}/{it}"):
                why = "whose folder bin has to come first on the path (README, 'Run it')"
                raise Stopped(f"{found} isn't the command rt of {KITS}, {why}")

    def files(self):
        """The files that say which kit it is."""
        return [f"{self.folder}/{it}" for it in ("KIT-ID", "WHAT")]

    def other_logic(self):
        """What to say of a kit whose logic isn't that of the README's proofs."""
        identity = self.identity()
        if LOGIC in identity.split():
            return None
        made = f"README's proofs were made with {KITS}, logic {LOGIC}"
        return f"{made}; this one is {identity}, and may refuse some of them"

    def identity(self):
        """What the kit says that it is."""
        with open(f"{self.folder}/KIT-ID", encoding="utf-8", errors="replace") as it:
            return it.read().strip()

    def load(self):
        """The command rt as a module, for its crates and for the lanes in which its gate proves them."""
        loader = importlib.machinery.SourceFileLoader("rt_command", self.command)
        made = importlib.util.module_from_spec(importlib.util.spec_from_loader("rt_command", loader))
        loader.exec_module(made)
        made.rtlib.stop = stop
        return made


def state(path):
    """The inode, size and time of the last change of a file or folder, or zeros if there is none."""
    try:
        it = os.stat(path)
    except (FileNotFoundError, NotADirectoryError):
        return 0, 0, 0, 0
    return (it.st_ino, it.st_size, *divmod(it.st_ctime_ns, 10**9))


def modified(path):
    """The size and the time of modification of a file, or zeros if there is none."""
    try:
        it = os.stat(path)
        return it.st_size, it.st_mtime_ns
    except (FileNotFoundError, NotADirectoryError):
        return 0, 0


def files_below(folder):
    """The folder, and all files and folders in it."""
    yield folder
    for at, folders, files in os.walk(folder):
        folders.sort()
        yield from (f"{at}/{it}" for it in sorted([*folders, *files]))


def states_below(crate):
    """The states of a crate's sources."""
    return [(it, state(it)) for part in PARTS for it in files_below(f"{crate.folder}/{part}")]


def content(path):
    try:
        with open(path, "rb") as it:
            return it.read()
    except IsADirectoryError:
        return b"a folder"
    except (FileNotFoundError, NotADirectoryError):
        return None


def checksum(made):
    return hashlib.sha256(made).hexdigest()


class Program:
    """A program, and what it is made of now."""

    # files that it is made of beside its sources
    OTHERS = ()

    def __init__(self, rt, kit, name, kind):
        self.rt, self.kit, self.name, self.kind = rt, kit, name, kind
        self.folder = f"{ROOT}/crates/{name}"
        self.kept = f"{self.folder}/out/{kind}"
        # what is held or has to be cleaned up while it is built
        self.held, self.locked, self.trying, self.room = [], None, None, None

    def find(self):
        """Finds the crates that it is made of, lowest first, and the folders that have their sources."""
        self.crate = self.rt.Crate(self.folder, ROOT, {})
        self.crates = [*self.crate.below(), self.crate]
        self.folders = [it.folder for it in self.crates]

    def look(self):
        """Looks at the sources: their states, what crates.txt says of them, and their checksum. The state of a file or
        folder is taken before it is read, and some milliseconds pass between, in which the clock of files ticks: so the
        state of what changes later differs."""
        if not os.path.isdir(f"{self.folder}/src"):
            raise Stopped(f"there is no program {self.name}: {os.path.relpath(self.folder, ROOT)}/src isn't there")
        states = [(it, state(it)) for it in [self.kit.command, *self.kit.files()]]
        states += [(it, state(f"{ROOT}/{it}")) for it in [*TOOLS, "HANDLES", "crates.txt", *self.OTHERS]]
        time.sleep(0.02)
        self.rt.rtlib.listed.cache_clear()
        self.find()
        # definitions and proofs aren't compiled
        parts = PARTS[:1] if self.kind == "tried" else PARTS
        own = (it for folder in self.folders for part in parts for it in files_below(f"{folder}/{part}"))
        self.states = states + [(os.path.relpath(it, ROOT), state(it)) for it in own]
        time.sleep(0.02)
        self.made_of = "".join(f"{it}\n" for it in self.checksums())
        self.sum = checksum(self.made_of.encode())
        return self

    def checksums(self):
        """The kind and the name of the program, and for each thing that it is made of a line with its checksum and its
        name. What crates.txt says of other crates doesn't matter, and KIT-ID and WHAT say which kit it is, wherever it
        is."""
        yield f"{self.kind} {self.name}"
        for it in self.crates:
            yield f"{checksum(repr(it.said).encode())}  {it.name} in crates.txt"
        for it, _ in self.states:
            if it not in ("crates.txt", self.kit.command):
                made = content(os.path.join(ROOT, it))
                name = f"{os.path.basename(it)} of the kit" if os.path.isabs(it) else it
                # (names have no line breaks so)
                yield f"{'absent' if made is None else checksum(made)}  {repr(name)[1:-1]}"

    def is_changed(self):
        """Whether anything changed since the last look, even if it was put back."""
        states, sum = self.states, self.sum
        return self.look().sum != sum or self.states != states

    def path(self):
        return f"{self.kept}/{self.sum}/program"

    def is_kept(self):
        """Whether the program is kept, and undamaged."""
        made = os.access(self.path(), os.X_OK) and content(self.path())
        return bool(made) and content(f"{self.path()}.sum") == checksum(made).encode()

    def room_for_build(self):
        return f"{self.folder}/out/making-{self.kind}"

    def keep(self):
        """Puts the program that was built in its place, with its checksum."""
        room = self.room_for_build()
        write(f"{room}/program.sum", checksum(content(f"{room}/program")).encode())
        if os.path.isfile(self.kept):
            os.remove(self.kept)
        os.makedirs(self.kept, exist_ok=True)
        remove(os.path.dirname(self.path()))
        os.rename(room, os.path.dirname(self.path()))
        older = sorted((it for it in os.scandir(self.kept) if it.is_dir()), key=lambda it: it.stat().st_mtime)
        for it in older[:-KEPT]:
            shutil.rmtree(it.path, ignore_errors=True)

    def renew(self):
        """Has the next calls run the program at once, where the checkout can be written."""
        try:
            folder, program = os.path.dirname(self.path()), os.path.relpath(self.path(), ROOT)
            states = [self.states[0], (program, state(self.path())), *self.states[1:]]
            write(f"{folder}/list", list_of(states))
            write(f"{self.kept}/now", f"{self.sum}\n".encode())
            if status_of(f"{folder}/run_unchanged", ROOT, f"{folder}/list") != UNCHANGED:
                self.compile_run_unchanged(f"{folder}/run_unchanged")
        except OSError:
            pass

    def let_others_build(self):
        """Ends the locks, unless the program was kept and nothing locked."""
        for it in [*self.held, self.locked]:
            if it is not None:
                os.close(it)
        self.held, self.locked = [], None

    def copy(self):
        """Copies the program to where rt leaves programs, for the tools that run it there."""
        try:
            write(f"{self.folder}/out/{self.name}", content(self.path()), mode=0o755)
        except OSError:
            pass

    def end_try(self):
        """Ends `rt try`."""
        if self.trying and self.trying.poll() is None:
            self.trying.terminate()
            self.wait_for_try(5)

    def clean(self):
        """Ends `rt try`, and removes its folder."""
        self.end_try()
        if self.room:
            shutil.rmtree(self.room, ignore_errors=True)

    def wait_for_try(self, seconds=float("inf")):
        """Waits until `rt try` ends, and returns its status. A signal may come in wait(), which then can't be called
        again."""
        end = time.time() + seconds
        while self.trying.poll() is None and time.time() < end:
            time.sleep(0.02)
        return self.trying.returncode

    def compile_run_unchanged(self, to):
        """Compiles tools/modules/run_unchanged.c by the kit's clang. Without it each call computes the checksum. It is on the
        disk before it is in its place, since after a crash a shell would run what has no bytes, with status 0."""
        made = f"{to}.{os.getpid()}"
        how = ["-O2", "-ffreestanding", "-nostdlib", "-static", "-fuse-ld=lld"]
        clang = f"{self.kit.folder}/toolchain/bin/clang"
        if status_of(clang, *how, f"{ROOT}/tools/modules/run_unchanged.c", "-o", made) == 0:
            with open(made, "rb") as it:
                os.fsync(it.fileno())
            if os.path.isdir(to):
                remove(to)
            os.replace(made, to)


class Rows(Program):
    """The program of rows, whose sources are in rows/src, and the libraries that it uses in rows/uses. It isn't proved.
    rt refuses a .rt file outside a crate of crates.txt, so these end with .rt.txt, and are compiled in a copy."""

    OTHERS = ("rows/uses",)

    def __init__(self, rt, kit):
        super().__init__(rt, kit, "rows", "tried")
        self.folder = f"{ROOT}/rows"
        self.kept = f"{self.folder}/out/tried"

    def find(self):
        self.line = (content(f"{ROOT}/rows/uses") or b"").decode()
        used = [it for it in self.line.split()[1:] if os.path.isdir(f"{ROOT}/crates/{it}")]
        tops = [self.rt.Crate(f"{ROOT}/crates/{it}", ROOT, {}) for it in used]
        # each once
        self.crates = [*{it.name: it for top in tops for it in [*top.below(), top]}.values()]
        self.folders = [*(it.folder for it in self.crates), self.folder]

    def copied(self, folder):
        """The program as a crate, in a copy of what it is made of, which is put into this folder."""
        names = {it.name for it in self.crates}
        for it in names:
            shutil.copytree(f"{ROOT}/crates/{it}/src", f"{folder}/crates/{it}/src")
        for it in files_below(f"{self.folder}/src"):
            if it.endswith(".rt.txt"):
                to = f"{folder}/crates/rows/{os.path.relpath(it, self.folder)[:-len('.txt')]}"
                os.makedirs(os.path.dirname(to), exist_ok=True)
                shutil.copyfile(it, to)
        shutil.copyfile(f"{ROOT}/HANDLES", f"{folder}/HANDLES")
        lines = content(f"{ROOT}/crates.txt").decode().splitlines()
        listed = [it for it in lines if it.partition(":")[0].strip() in names]
        write(f"{folder}/crates.txt", "\n".join([*listed, self.line]).encode())
        return self.rt.Crate(f"{folder}/crates/rows", folder, {})


def status_of(*words):
    """The status of a command, or None if it doesn't start."""
    try:
        streams = dict.fromkeys(("stdin", "stdout", "stderr"), subprocess.DEVNULL)
        return subprocess.run(words, **streams).returncode
    except OSError:
        return None


def proved(kit):
    """The proved programs by the names by which people call them, as what they are made of is now."""
    rt = kit.load()
    return {it: Program(rt, kit, f"{it}_main", "proved").look() for it in PROGRAMS}


def list_of(states):
    """The list of these states, as tools/modules/run_unchanged.c reads it."""
    listed, folder = b"", None
    for path, (inode, size, *changed) in states:
        is_above_next = os.path.basename(path) in PARTS
        if folder and path.startswith(folder):
            path, is_above_next = path[len(folder):], False
        elif is_above_next:
            folder = f"{path}/"
        path = os.fsencode(path)
        path += bytes(8 - len(path) % 8)
        listed += struct.pack("<2QqI2H", inode, size, *changed, 32 + len(path), is_above_next) + path
    return struct.pack("<Q", 8 + len(listed)) + listed


def write(path, text, mode=0o644):
    """Writes a file in one step."""
    with open(f"{path}.{os.getpid()}", "wb") as it:
        it.write(text)
    os.chmod(it.name, mode)
    if os.path.isdir(path):
        remove(path)
    os.replace(it.name, path)


def remove(path):
    """Removes a file or folder, if it is there."""
    if os.path.isfile(path) or os.path.islink(path):
        os.remove(path)
    shutil.rmtree(path, ignore_errors=True)


def fresh(folder):
    """An empty folder, whatever was there."""
    above = os.path.dirname(folder)
    if os.path.isfile(above):
        os.remove(above)
    remove(folder)
    os.makedirs(folder)
    return folder


def lock(folder, say):
    """Waits until no other build works in this folder, and keeps others out until the process ends."""
    held = os.open(folder, os.O_RDONLY)
    try:
        fcntl.flock(held, fcntl.LOCK_EX | fcntl.LOCK_NB)
    except BlockingIOError:
        say("waiting for another build in this repository to end")
        fcntl.flock(held, fcntl.LOCK_EX)
    except OSError:
        # some file systems have no locks
        pass
    return held


def end_on_signals(name, clean):
    """Has a signal end this process, after one line. What it started ends with it (guarded() of rtlib)."""

    def end(number, _):
        say(f"{name}: stopped by {signal.Signals(number).name}")
        clean()
        # a shell that runs it in a loop has to see that a signal ended it
        signal.signal(number, signal.SIG_DFL)
        os.kill(os.getpid(), number)

    for it in (signal.SIGINT, signal.SIGTERM, signal.SIGHUP):
        if signal.getsignal(it) != signal.SIG_IGN:
            signal.signal(it, end)


def become(program, arguments):
    """Runs the program in place of this process."""
    for it in (signal.SIGPIPE, signal.SIGXFSZ):
        signal.signal(it, signal.SIG_DFL)
    os.execv(program, [program, *arguments])
