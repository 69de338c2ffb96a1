#!/usr/bin/env python3
"""Writes the texts of the cases to files of a folder: texts.py FOLDER

They are what crates/protobuf_parse_bench damages: docs/testing.md."""

import glob
import os
import re
import sys

CASES = os.path.join(os.path.dirname(__file__), "../../crates/protobuf_parse_cases/data/*.cases")
VERBS = ("list", "parse", "customs", "imports", "package")


def text_of(written):
    """The bytes of a text, or None where it has a mark that repeats something."""
    pieces = re.split("«([^»]*)»", written)
    try:
        return b"".join(
            bytes.fromhex(piece) if i % 2 else piece.encode() for i, piece in enumerate(pieces)
        )
    except ValueError:
        return None


def texts_of(content):
    for case in re.split("^=== ", content, flags=re.M)[1:]:
        parts = re.split("^-- (.*) --\n", case, flags=re.M)
        verb = (parts[0].split("\n") + [""])[1].split(" ")[0]
        for head, body in zip(parts[1::2], parts[2::2]):
            if head == "rows" and verb in VERBS:
                rows = body.replace("\n    ", "").split("\n")
                yield from (row.split(" => ")[0] for row in rows if " => " in row)
            elif head not in ("rows", "want"):
                yield body.removesuffix("\n")


def main(folder):
    os.makedirs(folder, exist_ok=True)
    count = 0
    for name in sorted(glob.glob(CASES)):
        with open(name, encoding="utf-8") as file:
            for written in texts_of(file.read()):
                text = text_of(written)
                if text:
                    count += 1
                    with open(f"{folder}/{count:04d}.proto", "wb") as to:
                        to.write(text)
    print(f"{count} texts")


main(sys.argv[1])
