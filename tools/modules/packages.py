"""The archive of what a build keeps, which tools/package makes and bin/install --from reads.

In the folder cfgrammar-VERSION-proved it has KIT-ID, which is that of the kit that proved the programs; for each crate
of a program a folder with the program, its checksum (program.sum) and the list of checksums of all that it was made of
(made-of), whose own checksum is the SUM under which a build keeps it; and SHA256SUMS, the checksums of all these. It is
the same, byte for byte, for the same programs.
"""
import gzip
import io
import re
import tarfile
import zlib

from .programs import checksum, content

# no archive of programs is as large as this
MOST_BYTES = 1 << 30
NAMES = re.compile(r"(cfgrammar-[\w.+~]+-proved)/(SHA256SUMS|KIT-ID|\w+/(?:program|program\.sum|made-of))")


class Refused(Exception):
    """Why nothing of an archive is used."""


def tar(files):
    """A compressed archive of files, their bytes and modes by path, with the folders that they are in."""
    packed = io.BytesIO()
    folders = {path[:at.start()] for path in files for at in re.finditer("/", path)} - {"."}
    with tarfile.open(fileobj=packed, mode="w", format=tarfile.GNU_FORMAT) as it:
        for path in sorted([*folders, *files]):
            entry = tarfile.TarInfo(path)
            entry.uname = entry.gname = "root"
            if path in folders:
                entry.type, entry.mode = tarfile.DIRTYPE, 0o755
                it.addfile(entry)
            else:
                made, entry.mode = files[path]
                entry.size = len(made)
                it.addfile(entry, io.BytesIO(made))
    return gzip.compress(packed.getvalue(), 9, mtime=0)


def sums_of(files):
    """The checksums of files, by the names below their folder, as sha256sum writes them."""
    return "".join(f"{checksum(files[it])}  {it}\n" for it in sorted(files)).encode()


def archive(programs, identity, version):
    """An archive of kept programs, that were proved by the kit of this identity."""
    files = {"KIT-ID": identity}
    for it in programs:
        made = content(it.path())
        files[f"{it.name}/program"], files[f"{it.name}/made-of"] = made, it.made_of.encode()
        files[f"{it.name}/program.sum"] = checksum(made).encode()
    files["SHA256SUMS"] = sums_of(files)
    mode = lambda path: 0o755 if path.endswith("/program") else 0o644
    return tar({f"cfgrammar-{version}-proved/{path}": (made, mode(path)) for path, made in files.items()})


class Archive:
    """What an archive has, once all its checksums are found to be right."""

    def __init__(self, path):
        self.files = {}
        try:
            self.read(path)
        except (tarfile.TarError, gzip.BadGzipFile, zlib.error, EOFError, ValueError):
            raise Refused("it is damaged, or no archive of tools/package") from None
        except OSError as it:
            raise Refused(f"it can't be read: {it.strerror}") from None
        if self.files.pop("SHA256SUMS", None) != sums_of(self.files):
            raise Refused("it is damaged: what it has differs from its checksums")
        self.identity = self.text("KIT-ID").partition("\n")[0]

    def read(self, path):
        """Reads all files. Nothing is written, and a name that no archive has is refused."""
        with gzip.open(path) as it:
            packed = it.read(MOST_BYTES)
            if it.read(1):
                raise Refused("it is too large")
        folders = set()
        with tarfile.open(fileobj=io.BytesIO(packed), mode="r:") as files:
            for it in files:
                found = NAMES.fullmatch(it.name)
                if it.isdir() and any(name.startswith(f"{it.name}/") for name in files.getnames()):
                    continue
                if not found or not it.isreg() or found[2] in self.files:
                    raise Refused(f"no archive of tools/package has {it.name!r}, as this one does")
                folders.add(found[1])
                self.files[found[2]] = files.extractfile(it).read()
        if len(folders) != 1:
            raise Refused("it has nothing, or is no archive of tools/package")

    def text(self, name):
        """The text of a file, or nothing if it isn't there."""
        return self.files.get(name, b"").decode(errors="replace")

    def program(self, name):
        """The bytes of a program."""
        return self.files.get(f"{name}/program", b"")

    def stop_unless_of(self, program):
        """Refuses the archive unless it has this program, made of just what is here."""
        made, made_of = self.program(program.name), self.text(f"{program.name}/made-of")
        if not made or self.text(f"{program.name}/program.sum") != checksum(made):
            raise Refused(f"it has no undamaged {program.name}")
        if made_of != program.made_of:
            names, here = differing(made_of, program.made_of), program.kit.identity().partition("\n")[0]
            kits = f" (its kit: {self.identity}; here: {here})" if here != self.identity else ""
            raise Refused(f"it was made of something else than is here, which differs in {listed(names)}{kits}")


def differing(*lists):
    """The names of what two lists of checksums have in different ways."""
    first, second = ({name: sum for sum, _, name in (it.partition("  ") for it in text.splitlines())} for text in lists)
    return sorted(it for it in {*first, *second} if first.get(it) != second.get(it))


def listed(names, most=5):
    """Some of these names, and how many others there are."""
    return f"{', '.join(names[:most])}{f' and {len(names) - most} others' if len(names) > most else ''}"
