#!/usr/bin/env python3
"""Compares what protoc says of mistakes with the violations that are told of them.

    scripts/beside_protoc/rules_beside_protoc.py [--cases FILE] [--program PROGRAM] [FOLDER]

For each schema below FOLDER, or else each row of scripts/beside_protoc/mistakes.cases, it prints protoc's first
message and what the program of the cases answers to `violations`, and at the end how many protoc
refuses and how many of these a run refuses or a rule tells of. Of a schema that protoc accepts no
error may be told: such lines are printed with `MORE`, those of which protoc alone says something
with `LESS`. The program is crates/protobuf_parse_cases/out/protobuf_parse_cases, as `rt run` builds
it there.
"""

import argparse
import re
import subprocess
import tempfile
from pathlib import Path

PROGRAM = Path("crates/protobuf_parse_cases/out/protobuf_parse_cases")
WARNINGS = {"C6", "C48", "C52"}


def rows_of(text):
    """The files beside each row, and the row's text."""
    for case in re.split(r"^=== .*\n", text, flags=re.M)[1:]:
        parts = re.split(r"^-- (.*) --\n", case, flags=re.M)
        files = {}
        for head, body in zip(parts[1::2], parts[2::2]):
            if head != "rows":
                files[head] = body.strip()
                continue
            for line in body.splitlines():
                if " => " in line:
                    yield files, line.rsplit(" => ", 1)[0]


def schemas_of(folder):
    for path in sorted(Path(folder).rglob("*.proto")):
        files = {
            str(p.relative_to(folder)): p.read_text()
            for p in Path(folder).rglob("*.proto")
            if p != path
        }
        yield files, path.read_text()


def protoc(files, text):
    """protoc's messages for the text with these files beside it, and whether it refuses it."""
    with tempfile.TemporaryDirectory() as folder:
        for name, body in [*files.items(), ("f.proto", text)]:
            path = Path(folder) / name
            path.parent.mkdir(parents=True, exist_ok=True)
            path.write_text(body)
        done = subprocess.run(
            ["protoc", "-I", folder, "--descriptor_set_out=/dev/null", "f.proto"],
            capture_output=True,
            text=True,
        )
    lines = [line for line in done.stderr.splitlines() if not re.search("[Ss]uggested field", line)]
    return done.returncode != 0, lines


def told(program, rows):
    """What the program answers to each row: a list of lines."""
    with tempfile.TemporaryDirectory() as folder:
        text = ""
        for i, (files, row) in enumerate(rows):
            text += f"=== {i}\nviolations f.proto\n"
            for name, body in [*files.items(), ("f.proto", row)]:
                text += f"-- {name} --\n{body}\n"
            text += "-- want --\n?\n"
        (Path(folder) / "rows.cases").write_text(text)
        done = subprocess.run([program.resolve()], cwd=folder, capture_output=True, text=True)
    answers = {}
    row = r"^rows\.cases:\d+: (\d+)\nwanted: .*\nfound: (.*(?:\n(?!rows\.cases:).*)*)"
    for found in re.finditer(row, done.stdout, re.M):
        answers[int(found.group(1))] = found.group(2).splitlines()
    return [answers.get(i, ["no answer"]) for i in range(len(rows))]


def is_error(line):
    code = re.search(r": (C\d+): ", line)
    return line != "none" and not (code and code.group(1) in WARNINGS)


def main():
    parser = argparse.ArgumentParser()
    parser.add_argument("folder", nargs="?")
    parser.add_argument("--cases", default=Path(__file__).with_name("mistakes.cases"))
    parser.add_argument("--program", type=Path, default=PROGRAM)
    given = parser.parse_args()
    rows = list(schemas_of(given.folder) if given.folder else rows_of(Path(given.cases).read_text()))
    refused = missed = more = 0
    for (files, row), answer in zip(rows, told(given.program, rows)):
        refuses, lines = protoc(files, row)
        errors = [line for line in answer if is_error(line)]
        mark = "    "
        if refuses:
            refused += 1
            if not errors:
                missed, mark = missed + 1, "LESS"
        elif errors:
            more, mark = more + 1, "MORE"
        print(f"{mark} {row[:200]}\n     protoc: {lines[0] if lines else 'nothing'}")
        for line in answer:
            print(f"     here: {line}")
    print(f"{len(rows)} schemas, {refused} refused by protoc, {missed} of them told of by nothing here,")
    print(f"{more} that protoc accepts told of as errors")


if __name__ == "__main__":
    main()
