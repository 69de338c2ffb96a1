#!/usr/bin/env python3
"""Compares where protoc and the command tell of mistakes.

    scripts/beside_protoc/places_beside_protoc.py [--cases FILE] [--program PROGRAM]

For each row of scripts/beside_protoc/places.cases both check f.proto; it prints the rows where the two do not tell
of the same line, and at the end how many rows there are of each kind. The program is
crates/protobuf_parse_cli/out/protobuf_parse_cli, as `rt run` builds it there.
"""

import argparse
import re
import subprocess
import tempfile
from collections import Counter
from pathlib import Path

from rules_beside_protoc import rows_of

PROGRAM = Path("crates/protobuf_parse_cli/out/protobuf_parse_cli")
TOLD = re.compile(r"(?P<file>[^:]*):(?:(?P<line>\d+):(?P<col>\d+):)? (?P<text>.*)")


def first_told(done, folder):
    """The first line that is no warning: its file, line, column and text."""
    for line in done.stderr.splitlines():
        found = TOLD.match(line.removeprefix(f"{folder}/"))
        if found and "warning" not in found["text"]:
            return found["file"], found["line"], found["col"], found["text"]
    return None


def told_of(program, files, text):
    with tempfile.TemporaryDirectory() as folder:
        for name, body in [*files.items(), ("f.proto", text.replace("«0a»", "\n"))]:
            (Path(folder) / name).write_text(body)
        run = lambda args: subprocess.run(args, capture_output=True, text=True)
        theirs = run(["protoc", "-I", folder, "-o", "/dev/null", "f.proto"])
        ours = run([program, "-I", folder, f"{folder}/f.proto"])
        return first_told(theirs, folder), first_told(ours, folder)


def kind_of(theirs, ours):
    if not theirs or not ours:
        return "refused by one alone"
    if theirs[1] is None or ours[1] is None:
        return "no line here" if ours[1] is None else "no line by protoc"
    if theirs[1:3] == ours[1:3]:
        return "the same place"
    return "the same line" if theirs[1] == ours[1] else "another line"


def main():
    parser = argparse.ArgumentParser()
    parser.add_argument("--cases", type=Path, default=Path(__file__).with_name("places.cases"))
    parser.add_argument("--program", type=Path, default=PROGRAM)
    given = parser.parse_args()
    kinds = Counter()
    for files, row in rows_of(given.cases.read_text()):
        theirs, ours = told_of(given.program.resolve(), files, row)
        kind = kind_of(theirs, ours)
        kinds[kind] += 1
        if kind not in ("the same place", "the same line"):
            print(f"{kind}: {row}\n    protoc: {theirs}\n    here:   {ours}")
    for kind, count in kinds.most_common():
        print(f"{count} {kind}")


if __name__ == "__main__":
    main()
