#!/usr/bin/env python3
"""Makes a release of what the gate passed: docs/release.md.

    scripts/release/release.py --gate LOG [--out DIR]
    scripts/release/release.py --gate LOG --without-license [--binary FILE --libraries DIR]

Run it at the top of a checkout in which `rt ci` passed, with its output in LOG. It makes in the
folder release/ an archive and a Debian package of the command, an archive of the proved
libraries, and their sums. Two runs make the same bytes. With --without-license all goes to a
folder unreleased/, and is no release; there another program can stand for the one that the gate
built. The status is 1 where it is refused, which one sentence says."""

import argparse
import hashlib
import os
import re
import subprocess
import sys
from dataclasses import dataclass
from datetime import datetime, timezone
from pathlib import Path

import release_archives as archives
import release_elf as elf
import release_gate as gate
import release_help as helps
import release_texts as texts
from release_archives import Entry
from release_gate import Refused


@dataclass
class Release:
    """What is released: its name, version and commit, the commit's time and author, the toolchain
    and the logic that it is proved with, the program's sum and the glibc that it wants."""

    name: str
    version: str
    commit: str
    time: int
    maintainer: str
    toolchain: str
    logic: str
    sum: str
    glibc: str

    def day(self):
        """The day of the commit."""
        return datetime.fromtimestamp(self.time, timezone.utc).strftime("%Y-%m-%d")


def git(top, *words):
    """What git prints of a checkout."""
    done = subprocess.run(["git", "-C", top, *words], capture_output=True, encoding="utf-8")
    if done.returncode:
        raise Refused(f"git {words[0]} failed: {done.stderr.strip()}")
    return done.stdout.strip()


def refuse_checkout(top, licensed):
    """Refuses a folder that is not the top of a checkout, one that has no licence where it must,
    and one that has changes which no commit has."""
    if not (top / "crates.txt").is_file() or not (top / ".git").exists():
        raise Refused("the top of a checkout is where a release is made, and this is none")
    if licensed and not (top / "LICENSE").is_file():
        raise Refused("there is no file LICENSE, which the owner has to choose")
    changes = git(top, "status", "--porcelain").splitlines()
    if changes:
        raise Refused(f"the checkout has changes that are not committed: {changes[0].strip()}")


def said(program, word):
    """What the program prints at one word."""
    try:
        done = subprocess.run([program, word], capture_output=True, encoding="utf-8", timeout=60)
    except (OSError, ValueError, subprocess.TimeoutExpired) as error:
        raise Refused(f"the program does not run with {word}: {error}") from None
    if done.returncode:
        raise Refused(f"the program ends with status {done.returncode} at {word}")
    return done.stdout


def version_of(program):
    """The version that the program says it has."""
    found = re.fullmatch(r"\S+ (\d+\.\d+\.\d+[\w.+~]*)\s*", said(program, "--version"))
    if found is None:
        raise Refused("the program tells no version")
    return found.group(1)


def help_of(program):
    """What the program's help says."""
    try:
        return helps.read_help(said(program, "--help"))
    except helps.Unread as error:
        raise Refused(f"the program's help has a line of no known form: {error}") from None


def refuse_program(data):
    """The glibc that a program wants. One that needs other libraries than libc is refused."""
    try:
        others = elf.beyond_libc(data)
        if others:
            raise Refused(f"the program needs more than libc: {', '.join(others)}")
        return elf.glibc_version(data)
    except elf.NotElf as error:
        raise Refused(f"the program is none for Linux: {error}") from None


def given_libraries(folder):
    """The libraries of a folder, by their names."""
    return {it.name.removesuffix(".rlib"): it for it in sorted(folder.glob("*.rlib"))}


def one(found, what):
    """The one thing that was found."""
    if len(found) != 1:
        raise Refused(f"the libraries are of {len(found)} {what}, and not of one")
    return next(iter(found))


def taken(top, crates, options):
    """The program and the libraries that are released, as paths."""
    if options.without_license and options.binary:
        return options.binary.resolve(), given_libraries(options.libraries)
    program = gate.built_program(top, crates)
    if options.gate.stat().st_mtime_ns < program.stat().st_mtime_ns:
        raise Refused(f"{options.gate} is older than what the gate built, so it is of another run")
    return program, gate.built_libraries(top, crates)


def describe(top, program, libraries, toolchain):
    """What is released."""
    data = program.read_bytes()
    glibc = refuse_program(data)
    logic = one(gate.formats(libraries, "logic"), "logics")
    if not logic.startswith(toolchain.split()[-1]):
        raise Refused("the libraries are of another logic than that of this toolchain")
    return Release(
        name=helps.NAME,
        version=version_of(program),
        commit=git(top, "rev-parse", "HEAD"),
        time=int(git(top, "log", "-1", "--format=%ct")),
        maintainer=git(top, "log", "-1", "--format=%an <%ae>"),
        toolchain=toolchain,
        logic=logic,
        sum=hashlib.sha256(data).hexdigest(),
        glibc=glibc,
    )


def papers(top, crates, proof):
    """What goes along with each archive: the licence, if there is one, the notices, the proof."""
    found = {"NOTICES.txt": texts.notices(crates).encode(), "PROOF.txt": proof.encode()}
    if (top / "LICENSE").is_file():
        found["LICENSE"] = (top / "LICENSE").read_bytes()
    return found


def installed(program, told, release, along, in_package):
    """The files of the command below /, for the package or for the archive, by their names."""
    page = helps.manual(told, release.version, release.day()).encode()
    zsh = "vendor-completions" if in_package else "site-functions"
    share, name = "usr/share", release.name
    found = {
        f"usr/bin/{name}": Entry(program.read_bytes(), runs=True),
        f"{share}/bash-completion/completions/{name}": Entry(helps.bash(told).encode()),
        f"{share}/zsh/{zsh}/_{name}": Entry(helps.zsh(told).encode()),
        f"{share}/fish/vendor_completions.d/{name}.fish": Entry(helps.fish(told).encode()),
    }
    if in_package:
        found[f"{share}/man/man1/{name}.1.gz"] = Entry(archives.packed(page))
        along = dict(along)
        licence = along.pop("LICENSE", b"There is no licence.\n")
        # (where Debian looks for both)
        along["copyright"] = licence + b"\n" + along.pop("NOTICES.txt")
    else:
        found[f"{share}/man/man1/{name}.1"] = Entry(page)
    for paper, data in along.items():
        found[f"{share}/doc/{name}/{paper}"] = Entry(data)
    return found


def library_files(libraries, release, along):
    """The files of the archive of libraries, by their names."""
    build = one(gate.formats(libraries, "rattle-build"), "builds of rattle")
    found = {paper: Entry(data) for paper, data in along.items()}
    found["README.txt"] = Entry(texts.libraries(release, build).encode())
    for crate, folder in libraries.items():
        for name, path in gate.files_below(folder).items():
            found[f"rlibs/{crate}.rlib/{name}"] = Entry(path=path)
    return found


def write_archive(out, top, entries, time):
    """Writes an archive whose files lie in one folder of its name."""
    inside = {f"{top}/{name}": entry for name, entry in entries.items()}
    path = out / f"{top}.tar.gz"
    with open(path, "wb") as file:
        archives.write_tar_gz(file, inside, time)
    return path


def write_all(out, top, program, libraries, release, along):
    """Writes the archives and their sums into a folder, and gives their paths."""
    told = help_of(program)
    readme = {"README.md": (top / "README.md").read_bytes()}
    name, version = release.name, release.version
    in_package = installed(program, told, release, along | readme, True)
    package = archives.deb(in_package, texts.control(release, told, in_package), release.time)
    in_archive = installed(program, told, release, along | readme, False)
    in_libraries = library_files(libraries, release, along)
    # all is known to be right before any is written
    out.mkdir(parents=True, exist_ok=True)
    made = [out / f"{name}_{version}_amd64.deb"]
    made[0].write_bytes(package)
    made.append(write_archive(out, f"{name}-{version}-x86_64-linux", in_archive, release.time))
    made.append(write_archive(out, f"{name}-libraries-{version}", in_libraries, release.time))
    sums = "".join(f"{gate.sum_of(it)}  {it.name}\n" for it in sorted(made))
    (out / "SHA256SUMS").write_text(sums, "utf-8")
    return [*sorted(made), out / "SHA256SUMS"]


def make(top, options):
    """Makes the release, and gives the paths of its files."""
    refuse_checkout(top, not options.without_license)
    crates, toolchain = gate.read_crates(top), gate.call_rt("version")
    try:
        log = options.gate.read_text("utf-8", "replace")
    except OSError as error:
        raise Refused(f"the gate's log cannot be read: {error}") from None
    found = gate.read_gate(log, crates, toolchain.split()[-1])
    program, libraries = taken(top, crates, options)
    release = describe(top, program, libraries, toolchain)
    tried = ""
    if options.without_license:
        tried = "Its program is the gate's."
        if options.binary:
            tried = "Its program was given by hand, and nothing is known of it."
    along = papers(top, crates, texts.proof(found, release, tried))
    out = options.out or Path("release")
    if options.without_license:
        out = (options.out or Path()) / "unreleased"
    return write_all(top / out, top, program, libraries, release, along)


def read_options():
    """The words of the command line."""
    parser = argparse.ArgumentParser(description=__doc__.split("\n")[0])
    parser.add_argument("--gate", metavar="LOG", type=Path, help="what `rt ci` printed")
    parser.add_argument("--out", metavar="DIR", type=Path, help="where it goes: release/ else")
    parser.add_argument("--without-license", action="store_true", help="to try it out")
    parser.add_argument("--binary", metavar="FILE", type=Path, help="stands for the program")
    parser.add_argument("--libraries", metavar="DIR", type=Path, help="stands for the libraries")
    options = parser.parse_args()
    if (options.binary is None) != (options.libraries is None):
        parser.error("--binary and --libraries go together")
    if options.binary and not options.without_license:
        parser.error("--binary and --libraries go with --without-license alone")
    return options


def main():
    """Makes the release, or says why there is none."""
    options = read_options()
    try:
        if options.gate is None:
            raise Refused("a release wants the gate's log: --gate LOG")
        for path in make(Path.cwd(), options):
            print(f"{path.stat().st_size:>12,}  {os.path.relpath(path)}")
    except Refused as error:
        print(f"release.py: {error}", file=sys.stderr)
        return 1
    return 0


if __name__ == "__main__":
    sys.exit(main())
