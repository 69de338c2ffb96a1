"""Archives that have the same bytes whenever they are made of the same files: tar with gzip, and
Debian's packages. Owners are root, times are one given number, and names are sorted."""

import gzip
import hashlib
import io
import tarfile
from pathlib import PurePosixPath


class Entry:
    """A file of an archive: its bytes, or the file on disk that has them, and whether it runs."""

    def __init__(self, data=b"", path=None, runs=False):
        """Takes the bytes, or the path of the file that has them."""
        self.data, self.path, self.runs = data, path, runs

    def open(self):
        """The bytes, to be read."""
        return open(self.path, "rb") if self.path else io.BytesIO(self.data)

    def size(self):
        """How many bytes it has."""
        return self.path.stat().st_size if self.path else len(self.data)


def header(name, time, mode, size=None):
    """The header of a file of this size, or with none of a folder."""
    info = tarfile.TarInfo(name)
    info.mtime, info.mode = time, mode
    info.uid = info.gid = 0
    info.uname = info.gname = "root"
    if size is None:
        info.type = tarfile.DIRTYPE
    else:
        info.size = size
    return info


def folders_of(names):
    """All folders above these names, sorted, each before what it holds."""
    above = {str(it) for name in names for it in PurePosixPath(name).parents}
    return sorted(above - {"."})


def write_tar_gz(to, entries, time, front=""):
    """Writes the entries, which are by their names, to an open file as a tar with gzip. With
    `front`, as `./`, each name begins with it, and the folder itself comes first."""
    with gzip.GzipFile(filename="", mode="wb", compresslevel=6, fileobj=to, mtime=0) as packed:
        with tarfile.open(fileobj=packed, mode="w", format=tarfile.GNU_FORMAT) as tar:
            if front:
                tar.addfile(header(front, time, 0o755))
            found = {name: None for name in folders_of(entries)} | entries
            for name, entry in sorted(found.items()):
                if entry is None:
                    tar.addfile(header(front + name, time, 0o755))
                    continue
                mode = 0o755 if entry.runs else 0o644
                with entry.open() as data:
                    tar.addfile(header(front + name, time, mode, entry.size()), data)


def tar_gz(entries, time, front=""):
    """The bytes of such a tar."""
    to = io.BytesIO()
    write_tar_gz(to, entries, time, front)
    return to.getvalue()


def packed(data):
    """The bytes with gzip, as manuals lie in a package."""
    return gzip.compress(data, compresslevel=9, mtime=0)


def ar(members, time):
    """The bytes of an ar archive of these pairs of a name and bytes, in their order."""
    text = b"!<arch>\n"
    for name, data in members:
        text += f"{name:<16}{time:<12}{0:<6}{0:<6}{'100644':<8}{len(data):<10}`\n".encode()
        text += data + b"\n" * (len(data) % 2)
    return text


def deb(entries, control, time):
    """The bytes of a package with these files below / and this text as its control file."""
    sums = "".join(
        f"{hashlib.md5(entry.data, usedforsecurity=False).hexdigest()}  {name}\n"
        for name, entry in sorted(entries.items())
    )
    about = {"control": Entry(control.encode()), "md5sums": Entry(sums.encode())}
    members = [
        ("debian-binary", b"2.0\n"),
        ("control.tar.gz", tar_gz(about, time, "./")),
        ("data.tar.gz", tar_gz(entries, time, "./")),
    ]
    return ar(members, time)
