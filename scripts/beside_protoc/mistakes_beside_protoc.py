#!/usr/bin/env python3
"""Holds what the command tells of mistakes against what protoc says.

    scripts/beside_protoc/mistakes_beside_protoc.py [--program PROGRAM] [--one N] [--some N] [--behind N] [--seed S]
        [--show KIND] [--most N]

Makes N files with one mistake each (`--one`), N with two to five (`--some`) and N with one mistake
in a file that is imported (`--behind`), of the kinds of scripts/beside_protoc/mistaken.py, checks each with protoc
and with the command, and prints for each kind how often the verdicts differ, how often protoc's
first line is among ours, and how many of its lines are. Files and lines are compared, no texts.
Of what protoc tells without a line, any line of the file will do; of what it tells elsewhere than
where the mistake stands, the rule (ELSEWHERE). `--show KIND` prints
the files of the kind where something differs, at most `--most`. The program is
crates/protobuf_parse_cli/out/protobuf_parse_cli, as `rt run` builds it there.
"""

import argparse
import os
import re
import subprocess
import tempfile
from collections import defaultdict
from concurrent.futures import ProcessPoolExecutor
from pathlib import Path

import mistaken

PROGRAM = Path("crates/protobuf_parse_cli/out/protobuf_parse_cli")
LINE = re.compile(r"^(?P<file>[^:\n]*):(?:(?P<line>\d+):(?P<col>\d+):)? (?P<text>.*)$", re.M)
# Lines that go with another one, or that only name files: a sum of what was said at the imported file.
AFTER = re.compile(
    r"Note that enum values|had errors|seems to be defined in|uggested field|File not found"
)
IMPORT = re.compile(r'^Import "(?P<path>.*)" was not found or had errors')
SETS = {"one": mistaken.one, "some": mistaken.some, "behind": mistaken.behind}


# What protoc tells where the mistake isn't, or at the other one of two constructs: a line is told if
# its rule is told in the file.
ELSEWHERE = [
    (re.compile(r"declares 'option allow_alias = false;'"), "C10"),
    (re.compile(r"declares support for enum aliases but"), "C40"),
    (re.compile(r"is reserved multiple times"), "C38"),
    (re.compile(r"^Extension range .* includes field"), "C31"),
    (re.compile(r"^Extension range .* overlaps with"), "C39"),
    (re.compile(r"^map_entry should not be set explicitly"), "T8"),
]
CODE = re.compile(r"\[([A-Z]\d+)\]$")


def told(text, folder):
    """What is told as errors, in order: of each the file, the line and the text. An import that is
    not found is told at its statement; one that has errors only goes with these."""
    errors = []
    missing = set(re.findall(r"^(.*): File not found\.$", text, re.M))
    for found in LINE.finditer(text.replace(f"{folder}/", "")):
        said = found["text"]
        behind = IMPORT.match(said)
        if behind and behind["path"] not in missing:
            continue
        if "warning" not in said[:12] and not AFTER.search(said):
            errors.append((found["file"].removeprefix("./"), found["line"], said))
    return list(dict.fromkeys(errors))


def is_among(error, ours):
    """Whether an error of protoc is told here: one without a line by any error of its file."""
    file, line, said = error
    for our_file, our_line, our_text in ours:
        if file == our_file and line in (None, our_line):
            return True
        code = CODE.search(our_text)
        if file == our_file and code and any(
            rule == code[1] and pattern.search(said) for pattern, rule in ELSEWHERE
        ):
            return True
    return False


def run(words, folder):
    return subprocess.run(words, capture_output=True, text=True, cwd=folder, errors="replace")


def compare(given):
    name, index, seed, program = given
    kinds, files = SETS[name](index, seed)
    if not kinds:
        return None
    with tempfile.TemporaryDirectory() as folder:
        for path, text in files.items():
            Path(folder, path).write_text(text)
        theirs = run(["protoc", "-I.", "-I/usr/include", "-o", "/dev/null", "main.proto"], folder)
        ours = run([program, "-I", ".", "main.proto"], folder)
    return {
        "kinds": kinds, "files": files, "index": index,
        "theirs": theirs.returncode, "ours": ours.returncode,
        "their_text": theirs.stderr, "our_text": ours.stderr,
        "their_lines": told(theirs.stderr, folder), "our_lines": told(ours.stderr, folder),
    }


class Count:
    def __init__(self):
        self.files = self.verdicts = self.refused = self.first = self.lines = self.among = 0
        self.accepted_here = self.refused_here = 0

    def add(self, found):
        self.files += 1
        theirs, ours = found["theirs"] != 0, found["ours"] != 0
        if theirs != ours:
            self.verdicts += 1
            if theirs:
                self.accepted_here += 1
            else:
                self.refused_here += 1
        lines = found["their_lines"]
        if theirs and lines:
            self.refused += 1
            self.first += is_among(lines[0], found["our_lines"])
            self.lines += len(lines)
            self.among += sum(is_among(line, found["our_lines"]) for line in lines)

    def row(self, name):
        first = f"{self.first} of {self.refused}"
        lines = f"{self.among} of {self.lines}"
        return (f"{name:32} {self.files:6} {self.verdicts:5} ({self.accepted_here}/{self.refused_here})"
                f" {first:>16} {lines:>16}")


def differs(found):
    theirs, ours = found["theirs"] != 0, found["ours"] != 0
    lines = found["their_lines"]
    return theirs != ours or (theirs and lines and not is_among(lines[0], found["our_lines"]))


def main():
    parser = argparse.ArgumentParser()
    parser.add_argument("--program", type=Path, default=PROGRAM)
    for name in SETS:
        parser.add_argument(f"--{name}", type=int, default=0)
    parser.add_argument("--seed", type=int, default=0)
    parser.add_argument("--show", default=None)
    parser.add_argument("--most", type=int, default=5)
    given = parser.parse_args()
    for name in SETS:
        if getattr(given, name):
            report(name, getattr(given, name), given)


def report(name, many, given):
    program = str(given.program.resolve())
    work = [(name, i, given.seed, program) for i in range(many)]
    whole, by_kind, shown = Count(), defaultdict(Count), 0
    with ProcessPoolExecutor(os.cpu_count()) as pool:
        for found in pool.map(compare, work, chunksize=32):
            if found is None:
                continue
            whole.add(found)
            for kind in set(found["kinds"]):
                by_kind[kind].add(found)
            if given.show in found["kinds"] and differs(found) and shown < given.most:
                shown += 1
                print(f"--- {name} {found['index']}: {found['kinds']}")
                for path in ("main.proto", "middle.proto"):
                    if path in found["files"] and found["kinds"]:
                        print(found["files"][path])
                print(f"protoc: {found['theirs']}\n{found['their_text']}here: {found['ours']}\n{found['our_text']}")
    print(f"\n{name}: kind, files, verdicts that differ (accepted here/refused here),"
          " first lines, all lines")
    for kind in sorted(by_kind):
        print(by_kind[kind].row(kind))
    print(whole.row("all"))


if __name__ == "__main__":
    main()
