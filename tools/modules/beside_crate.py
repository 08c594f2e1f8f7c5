"""The Rust crate cfgrammar 0.15.0 and the program of rows, side by side: for tools/beside, tools/original_rows and tools/bench.

tools/original is a cargo project over the crate. ORIGINAL is the crate's folder, or a folder that has it as `cfgrammar`, or the word
`registry`, for which cargo downloads it. Cargo.lock of tools/original has the versions of the dependencies over which the stored answers
were made, with replacements for two of them. For a folder with other ones cargo refuses that lock, and says so: without the file it chooses
anew, as it does for `registry`."""
import os
import re
import shutil
import stat
import subprocess
import sys
import tempfile

from .explained import explained, normal, row_of

ROOT = os.path.dirname(os.path.dirname(os.path.dirname(os.path.realpath(__file__))))
CACHE = os.environ.get('XDG_CACHE_HOME') or os.path.expanduser('~/.cache')
COPY = f'{CACHE}/cfgrammar-original'


def own_folder(path):
    """A folder in the user's cache, where what is built once can be kept. Nobody else may write there."""
    os.makedirs(path, mode=0o700, exist_ok=True)
    found = os.lstat(path)
    if not stat.S_ISDIR(found.st_mode) or found.st_uid != os.getuid() or found.st_mode & 0o022:
        sys.exit(f'{path} is not a folder that only its user may write')


def build(original):
    """Builds tools/original over the crate, and returns the program's path."""
    own_folder(COPY)
    shutil.rmtree(f'{COPY}/project', ignore_errors=True)
    without = shutil.ignore_patterns('Cargo.lock') if original == 'registry' else None
    shutil.copytree(f'{ROOT}/tools/original', f'{COPY}/project', ignore=without)
    command, folder = ['cargo', 'build', '--release', '--quiet', '--target-dir', f'{COPY}/target'], ROOT
    if original != 'registry':
        folder = os.path.realpath(original)
        crate = folder if is_crate(folder) else f'{folder}/cfgrammar'
        if not is_crate(crate):
            sys.exit(f'{original} has no cfgrammar 0.15.0')
        with open(f'{COPY}/project/Cargo.toml', 'a', encoding='utf-8') as it:
            it.write(f'\n[patch.crates-io]\ncfgrammar = {{ path = "{crate}" }}\n')
        command += ['--offline', *['--locked'] * os.path.exists(f'{COPY}/project/Cargo.lock')]
    # cargo reads the configuration of the folder in which it runs
    ran = subprocess.run([*command, '--manifest-path', f'{COPY}/project/Cargo.toml'], cwd=folder, capture_output=True, text=True)
    if ran.returncode:
        sys.exit(f'{ran.stderr}tools/original is not built')
    return f'{COPY}/target/release/original'


def built_over():
    """By which compiler tools/original was built, and over which of the crate's dependencies."""
    rustc = subprocess.run(['rustc', '--version'], capture_output=True, text=True, check=True).stdout.split()[1]
    with open(f'{COPY}/project/Cargo.lock', encoding='utf-8') as it:
        packages = it.read().split('[[package]]')
    found = []
    for name in ('indexmap', 'regex', 'vob'):
        said = next(it for it in packages if f'name = "{name}"\n' in it)
        version = re.search(r'version = "(.*)"', said)[1]
        found.append(f'{name} {version}' if '\nsource = ' in said else f'a stand-in for {name} {version}')
    return f'rustc {rustc} compiled the crate, by the release profile, over {", ".join(found[:-1])} and {found[-1]}.'


def is_crate(folder):
    try:
        with open(f'{folder}/Cargo.toml', encoding='utf-8') as it:
            text = it.read()
    except OSError:
        return False
    return bool(re.search(r'^name = "cfgrammar"$', text, re.M) and re.search(r'^version = "0\.15\.0"$', text, re.M))


def parts(written, count):
    """The lines that were printed for each of so many rows."""
    found = re.split(r'(?:\A|\n)== \S+\n', written)[1:]
    return [part.rstrip('\n').split('\n') for part in found] if len(found) == count else None


def written(command, rows):
    """The lines that a program prints for each row. If it fails, the rows are halved until the one that fails is found."""
    with tempfile.NamedTemporaryFile('w', suffix='.rows', encoding='utf-8', newline='') as file:
        file.writelines(rows)
        file.flush()
        os.chmod(file.name, 0o644)
        ran = subprocess.run([*command, file.name], capture_output=True, check=False)
    found = parts(ran.stdout.decode(), len(rows)) if ran.returncode == 0 else None
    if found is not None:
        return found
    if len(rows) == 1:
        return [[f'status {ran.returncode}: {ran.stderr.decode()[-300:]}']]
    half = len(rows) // 2
    return written(command, rows[:half]) + written(command, rows[half:])


class Both:
    """The two programs."""

    def __init__(self, original, program, milliseconds=200):
        self.original, self.program, self.milliseconds = original, program, milliseconds

    def of_crate(self, rows, milliseconds=None):
        return written([self.original, 'answers', str(milliseconds or self.milliseconds)], rows)

    def of_port(self, rows):
        return [normal(row_of(spelled), answered) for spelled, answered in zip(rows, written([self.program], rows))]

    def answers(self, rows, milliseconds=None):
        """Each row as it is given to the port, and the answers of the crate and of the port. A row requests the minimal sentences of a rule
        only if the crate lists them."""
        by_crate = self.of_crate(rows, milliseconds)
        requested = [it + listed(answered) if it.startswith('generator ') else it for it, answered in zip(rows, by_crate)]
        return list(zip(requested, by_crate, self.of_port(requested)))

    def explained(self, rows):
        """The same, each with the names of the differences, or None. What isn't explained is tried again with ten times the time, since
        on a busy machine a call may look endless."""
        found = []
        for spelled, (requested, crate, port) in zip(rows, self.answers(rows)):
            names = explained(row_of(requested), crate, port)
            if names is None:
                requested, crate, port = self.answers([spelled], 10 * self.milliseconds)[0]
                names = explained(row_of(requested), crate, port)
            found.append((requested, crate, port, names))
        return found


def listed(answered):
    """The line of a row that requests the minimal sentences of the rules whose sentences the crate listed."""
    names = [line.split(' ')[6].rstrip(':') for line in answered if line.startswith('    rule ') and '; all ' in line]
    return f'  sentences {" ".join(names) or "-"}\n'
