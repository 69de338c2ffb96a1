#!/usr/bin/env python3
"""The edits that the check must refuse: those under crates/*/must-fail/ and those under mutants/.

Run it at the top of the repository: it prints each edit, with the texts that it puts in place of
others. With --check it tells the edits that can't be made, since their file isn't there or hasn't
the text just once; then the status is 1. With --try and names of crates (none: all) it tries the
edits of mutants/ on a copy: `rt must-fail` must refuse each.
"""

import shutil
import subprocess
import sys
import tempfile
from pathlib import Path


def edits():
    return sorted([*Path("crates").glob("*/must-fail/*.edit"), *Path("mutants").glob("*/*.edit")])


def changes(path):
    """The changes of an edit, each as its file, the text there and that in its place."""
    file = old = None
    for line in path.read_text().splitlines():
        if line.startswith("file: "):
            file = Path("crates", path.parts[1], line[6:].strip())
        elif line.startswith("old: "):
            old = line[5:]
        elif line.startswith("new:"):
            yield file, old, line[5:]


def wrong(path):
    """Why an edit can't be made, in one line each."""
    found = list(changes(path))
    if not found:
        yield f"{path}: changes nothing"
    for file, old, _ in found:
        times = file.read_text().count(old) if file and file.is_file() and old else 0
        if times != 1:
            yield f"{path}: {times} times in {file}: {old}"


def try_edits(names):
    """Whether each edit of mutants/ for these crates is refused, on a copy of the repository."""
    crates = names or sorted(path.name for path in Path("mutants").iterdir())
    files = subprocess.run(
        ["git", "ls-files", "-co", "--exclude-standard"], capture_output=True, text=True, check=True
    ).stdout.splitlines()
    with tempfile.TemporaryDirectory() as room:
        for file in filter(lambda file: Path(file).is_file(), files):
            to = Path(room, file)
            to.parent.mkdir(parents=True, exist_ok=True)
            shutil.copy2(file, to)
        for crate in crates:
            to = Path(room, "crates", crate, "must-fail")
            to.mkdir(exist_ok=True)
            for edit in Path("mutants", crate).glob("*.edit"):
                shutil.copy2(edit, to)
        return subprocess.run(["rt", "must-fail", *crates], cwd=room).returncode == 0


def main():
    if "--try" in sys.argv:
        return 0 if try_edits(sys.argv[sys.argv.index("--try") + 1 :]) else 1
    if "--check" in sys.argv:
        told = [line for path in edits() for line in wrong(path)]
        print("\n".join(told) or f"{len(edits())} edits")
        return 1 if told else 0
    for path in edits():
        print(f"{path}:")
        for file, old, new in changes(path):
            print(f"  {file}\n    - {old.strip()}\n    + {new.strip()}")
    return 0


if __name__ == "__main__":
    sys.exit(main())
