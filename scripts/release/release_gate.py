"""What the gate passed and built: its log, the program and the libraries that it left in out/, and
the crates of the kit below them.

`rt ci` leaves the program in crates/protobuf_parse_cli/out/, and each library, a folder, in
crates/NAME/out/rlib/NAME.rlib. What it passed it also keeps beside the kit in rattle-kept/, where
made.json of an entry has the sum of each file. What lies in out/ is taken only if it has these
sums, so nothing is that `rt try`, `rt run` or `rt check` made."""

import hashlib
import json
import re
import shutil
import subprocess
from dataclasses import dataclass
from pathlib import Path

PROGRAM = "protobuf_parse_cli"
READ = ("src", "specs", "proofs", "c")
KEPT = re.compile(r"rt: (\w+) is kept: .*")


class Refused(Exception):
    """Why there is no release, as one sentence."""


@dataclass
class Gate:
    """What a log of the gate says: its `rt: ok` line, its last line, and of each crate its
    verdict, or that an earlier run proved the same files."""

    ok: str
    last: str
    said: dict


def read_crates(top):
    """The crates that crates.txt of a checkout names, each with those that it stands on."""
    lines = (top / "crates.txt").read_text("utf-8").splitlines()
    rows = [line.partition("#")[0] for line in lines]
    found = (row.partition(":") for row in rows if row.strip())
    return {name.split()[0]: below.split() for name, _, below in found}


def verdicts(lines):
    """What the lines of a log say of each crate: its verdict, or that it is kept."""
    said, crate = {}, None
    for line in lines:
        kept = KEPT.fullmatch(line)
        if line.startswith("== "):
            # (a heading of tests is no crate's name)
            crate = line[3:]
        elif kept:
            said[kept.group(1)] = line
        elif line.startswith("logic=proved ") and crate is not None:
            said[crate] = line
    return said


def read_gate(text, crates, logic):
    """What the log of a gate says, in which a time may stand before each line. It is refused
    unless the gate passed, and proved each of the crates by the logic whose sum begins so."""
    lines = [re.sub(r"^\d\d:\d\d:\d\d ", "", line) for line in text.splitlines() if line.strip()]
    last = re.fullmatch(r"(\d+) passed, (\d+) failed(.*)", lines[-1] if lines else "")
    if last is None:
        raise Refused("the gate's log does not end with `N passed, M failed`")
    if last.group(3):
        raise Refused("the log is of `rt ci` with names, which is not the gate")
    ok = [line for line in lines if line.startswith("rt: ok; ")]
    if last.group(1) == "0" or last.group(2) != "0" or not ok:
        raise Refused(f"the gate did not pass: {last.group()}")
    said = verdicts(lines)
    for crate in crates:
        if crate not in said:
            raise Refused(f"the gate's log has no verdict on {crate}")
        found = re.search(r" sum=(\w+)", said[crate])
        if found and not logic.startswith(found.group(1)):
            raise Refused(f"{crate} was proved by another logic than that of this toolchain")
    return Gate(ok[-1], last.group(), {crate: said[crate] for crate in crates})


def rt_path():
    """Where the command `rt` lies, in the folder bin/ of its kit."""
    found = shutil.which("rt")
    if found is None:
        raise Refused("there is no command `rt` on the path")
    return Path(found).resolve()


def kit():
    """The folder of the kit that `rt` is of."""
    return rt_path().parent.parent


def call_rt(*words):
    """What `rt` prints at these words."""
    done = subprocess.run([rt_path(), *words], capture_output=True, encoding="utf-8")
    if done.returncode or not done.stdout.strip():
        raise Refused(f"rt {' '.join(words)} failed: {done.stderr.strip()}")
    return done.stdout.strip()


def sum_of(path):
    """The SHA-256 of a file."""
    found = hashlib.sha256()
    with open(path, "rb") as file:
        while data := file.read(1 << 20):
            found.update(data)
    return found.hexdigest()


def files_below(folder):
    """All files below a folder, by their paths from there."""
    return {str(it.relative_to(folder)): it for it in folder.rglob("*") if it.is_file()}


def kept_sums(crate):
    """What the gate keeps of a crate: of each time that it passed the sums of its files."""
    for entry in sorted((kit().parent / "rattle-kept").glob(f"proof-{crate}-*/made.json")):
        try:
            yield dict(json.loads(entry.read_text("utf-8"))["files"])
        except (OSError, ValueError, KeyError, TypeError):
            continue


def changed(top, crate):
    """When the files of a crate that its proof reads last changed, in nanoseconds."""
    files = [top / "crates.txt", *top.glob("HANDLES")]
    for part in (top / "crates" / crate / name for name in READ):
        # (a folder changes where a file in it comes or goes)
        files += [part, *part.rglob("*")] if part.is_dir() else []
    return max(it.stat().st_ctime_ns for it in files)


def below(crates, crate):
    """A crate and those of the repository that it stands on, as a set."""
    found, open_ones = set(), [crate]
    while open_ones:
        name = open_ones.pop()
        if name in crates and name not in found:
            found.add(name)
            open_ones += crates[name]
    return found


def refuse_stale(top, crates, crate, made):
    """Refuses what was made before a file changed that its proof reads. `made` is the file or the
    folder that shows when."""
    for name in sorted(below(crates, crate)):
        if changed(top, name) > made.stat().st_mtime_ns:
            file = made.relative_to(top)
            raise Refused(f"{name} changed after {file} was made: run `rt ci` again")


def built_program(top, crates):
    """The program that the gate left, as its path."""
    program = top / "crates" / PROGRAM / "out" / PROGRAM
    if not program.is_file():
        raise Refused(f"there is no {program.relative_to(top)}: run `rt ci` here first")
    mark = sum_of(program)
    if not any(sums.get(PROGRAM) == mark for sums in kept_sums(PROGRAM)):
        raise Refused(f"{program.relative_to(top)} is not what `rt ci` proved and built")
    refuse_stale(top, crates, PROGRAM, program)
    return program


def is_library(top, crate):
    """Whether a crate is a library that others call: tests are none."""
    return (top / "crates" / crate / "src/lib.rt").is_file() and not crate.endswith("_tests")


def built_libraries(top, crates):
    """The libraries that the gate left, as their folders, by their names."""
    found = {}
    for crate in filter(lambda it: is_library(top, it), crates):
        out = top / "crates" / crate / "out"
        folder = out / f"rlib/{crate}.rlib"
        if not folder.is_dir():
            raise Refused(f"there is no {folder.relative_to(top)}: run `rt ci` here first")
        sums = {str(it.relative_to(out)): sum_of(it) for it in files_below(folder).values()}
        if not any(kept == sums for kept in kept_sums(crate)):
            raise Refused(
                f"{folder.relative_to(top)} is not what `rt ci` proved and built: "
                "run it in a clean clone, and make the release there"
            )
        refuse_stale(top, crates, crate, folder.parent)
        found[crate] = folder
    return found


def formats(libraries, word):
    """What the files `format` of these libraries have behind a word, as a set."""
    texts = (folder.joinpath("format").read_text("utf-8") for folder in libraries.values())
    return {it for text in texts for it in re.findall(rf"^{word} (.+)$", text, re.MULTILINE)}


def kit_crates(crates):
    """The kit's crates that the program is linked with, sorted."""
    open_ones = ["std"]
    for crate in below(crates, PROGRAM):
        open_ones += [name for name in crates[crate] if name not in crates]
    found = set()
    while open_ones:
        name = open_ones.pop()
        if name not in found:
            found.add(name)
            text = (kit() / f"rlibs/{name}.rlib/format").read_text("utf-8")
            open_ones += re.findall(r"^dep (\w+)$", text, re.MULTILINE)
    return sorted(found)


def licences(crate):
    """The licence files of a crate of the kit, sorted."""
    return sorted((kit() / "rattle" / crate).glob("LICENSE*"))
