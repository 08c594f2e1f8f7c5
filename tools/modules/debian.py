"""A package of Debian, made without Debian's tools: the same, byte for byte, for the same files."""
import gzip
import hashlib
import re

from .packages import tar

# by the number in a program's head (ELF)
MACHINES = {62: "amd64", 183: "arm64"}


def architecture(program):
    """Debian's name of the machines on which a program runs; of a script, all."""
    if program[:4] != b"\x7fELF":
        return "all"
    return MACHINES[int.from_bytes(program[18:20], "little")]


def needs(program):
    """The packages of Debian that a program needs, by the names of libraries and versions in it."""
    versions = [tuple(map(int, it)) for it in re.findall(rb"\0GLIBC_(\d+)\.(\d+)", program)]
    libraries = [f"libc6 (>= {'.'.join(map(str, max(versions)))})"] if versions else []
    return ", ".join(libraries + ["libgcc-s1"] * (b"\0libgcc_s.so.1\0" in program))


def archived(members):
    """An archive of ar, of members by their names."""
    made = b"!<arch>\n"
    for name, member in members.items():
        made += f"{name:<16}{0:<12}{0:<6}{0:<6}{'100644':<8}{len(member):<10}`\n".encode()
        made += member + b"\n" * (len(member) % 2)
    return made


def compressed(text):
    return gzip.compress(text, 9, mtime=0)


def package(fields, files):
    """The package: fields, and files by the paths at which they are installed, each with its bytes and its mode."""
    size = sum(len(made) for made, _ in files.values())
    fields = {**fields, "Installed-Size": -(-size // 1024)}
    control = "".join(f"{name}: {value}\n" for name, value in fields.items() if value)
    sums = "".join(f"{hashlib.md5(files[it][0]).hexdigest()}  {it}\n" for it in sorted(files))
    about = {"control": (control.encode(), 0o644), "md5sums": (sums.encode(), 0o644)}
    return archived({
        "debian-binary": b"2.0\n",
        "control.tar.gz": tar({f"./{name}": it for name, it in about.items()}),
        "data.tar.gz": tar({f"./{path}": it for path, it in files.items()}),
    })
