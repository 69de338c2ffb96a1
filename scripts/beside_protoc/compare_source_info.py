#!/usr/bin/env python3
"""Compares the source info of texts with that of protoc: docs/source_info.md.

    scripts/beside_protoc/compare_source_info.py [--program PROGRAM] [--seed N] [--count N] [FILE..]

It takes the files that it is given, or so many random schemas (random_schemas.py), whose folder is
the include, and compares the source info in the sets that protoc and PROGRAM, which is the command,
write of them with `--include_source_info`, byte for byte; compare_sets.py compares what else is in
a set. It prints each text of which a location differs, with the first that does, and how many were
the same; a text that either refuses is left out and counted. It wants a protoc of 3.21 and Python's
package for Protocol Buffers. Its status is 1 where a location differs."""

import argparse
import random
import shutil
import subprocess
import sys
import tempfile
from itertools import zip_longest
from pathlib import Path

from google.protobuf import descriptor_pb2

from random_schemas import text

PROGRAM = "crates/protobuf_parse_cli/out/protobuf_parse_cli"
# So many random schemas are given to the command at once.
AT_ONCE = 25


def written(words, folder, paths):
    """The set that the program writes of the files, or None if it refuses them."""
    out = Path(folder) / "out.binpb"
    out.unlink(missing_ok=True)
    words = [*words, "--include_source_info", "-o", out, f"-I{paths[0].parent}"]
    done = subprocess.run([*words, *(path.name for path in paths)], capture_output=True)
    return None if done.returncode else out.read_bytes()


def infos(data):
    """The source info of a set's files."""
    return [it.source_code_info for it in descriptor_pb2.FileDescriptorSet.FromString(data).file]


def spelled(data):
    """The same as bytes."""
    return [info.SerializeToString() for info in infos(data)]


def locations(data):
    return [location for info in infos(data) for location in info.location]


def compared(program, folder, path):
    """How many locations of the text are the same, or None, and what is told of it."""
    theirs = written(["protoc"], folder, [path])
    ours = written([program, "--rules=off"], folder, [path])
    if theirs is None or ours is None:
        return None, f"{path}: refused by {'protoc' if theirs is None else 'the command'}"
    if spelled(theirs) == spelled(ours):
        return len(locations(theirs)), None
    pairs = zip_longest(locations(theirs), locations(ours))
    first = next((pair for pair in pairs if pair[0] != pair[1]), ("no location", "no location"))
    return 0, f"{path}: protoc {first[0]}\nthe command {first[1]}"


def together(program, folder, paths):
    """How many locations the texts have, if all are taken and all are the same."""
    theirs = written(["protoc"], folder, paths)
    ours = written([program, "--rules=off"], folder, paths)
    if theirs is None or ours is None or spelled(theirs) != spelled(ours):
        return None
    return len(locations(theirs))


def main():
    parser = argparse.ArgumentParser(description=__doc__.split("\n")[0])
    parser.add_argument("--program", default=PROGRAM)
    parser.add_argument("--seed", type=int, default=1)
    parser.add_argument("--count", type=int, default=50)
    parser.add_argument("files", nargs="*", type=Path)
    given = parser.parse_args()
    program = Path(given.program).resolve()
    same = wrong = refused = 0
    with tempfile.TemporaryDirectory() as folder:
        paths = [path.resolve() for path in given.files]
        for number in range(0 if paths else given.count):
            # Each package is another one, so that many can be given at once.
            content = text(random.Random(f"{given.seed} {number}")).replace("pk", f"pk{number}")
            paths.append(Path(folder) / f"s{given.seed}_{number}.proto")
            paths[-1].write_bytes(content.encode())
        for start in range(0, len(paths), AT_ONCE):
            part = paths[start : start + AT_ONCE]
            all_same = None if given.files else together(program, folder, part)
            if all_same is not None:
                same += all_same
                continue
            for path in part:
                count, told = compared(program, folder, path)
                same += count or 0
                refused += count is None
                if told:
                    print(told)
                if told and count is not None:
                    wrong += 1
                    shutil.copy(path, ".") if path.parent == Path(folder) else None
    print(f"{len(paths)} texts, {refused} refused, {wrong} differ; {same} locations are the same")
    return 1 if wrong else 0


sys.exit(main())
