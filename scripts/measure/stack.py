#!/usr/bin/env python3
"""How much of the stack the built command takes on texts that nest as deep as they may.

    rt run -- --help          (in crates/protobuf_parse_cli: builds out/protobuf_parse_cli)
    scripts/measure/stack.py

Each text is given to the command with less and less stack, in steps of 16 KB, until it is killed.
The status is 1 where a text takes more than is promised, or is not accepted.
"""

import resource
import subprocess
import sys
import tempfile
from pathlib import Path

PROGRAM = Path("crates/protobuf_parse_cli/out/protobuf_parse_cli")
STEP = 16 * 1024
# What README and docs/PROVED.md ask for.
PROMISED = 1024 * 1024


def nested(before, opened, inside, closed, levels):
    """A text in which `opened` stands so many times around `inside`."""
    return before + opened * levels + inside + closed * levels


TEXTS = {
    "messages": nested('syntax = "proto3";', "message M {", "", "}", 100),
    "groups": nested("message M {", "optional group G = 1 {", "", "}", 99) + "}",
    "lists in a custom option": nested("option (a) = ", "[", "1", "]", 100) + ";",
    "messages in a custom option": nested("option (a) = ", "{ b ", "{}", "}", 99) + ";",
    "a map of maps": nested("message M {", "map<int32, ", "int32", ">", 99) + " m = 1; }",
    "brackets of all kinds": nested("message M {", "message N {", "", "}", 50)
    + nested("optional string s = 1 [(a) = ", "[", "", "]", 40)
    + "]; }",
}


def passes(path, folder, stack):
    """Whether the command ends by itself with that much stack."""

    def limit():
        resource.setrlimit(resource.RLIMIT_STACK, (stack, stack))

    done = subprocess.run(
        [PROGRAM, "-I", folder, path],
        stdout=subprocess.DEVNULL,
        stderr=subprocess.DEVNULL,
        preexec_fn=limit,
        check=False,
    )
    return done.returncode >= 0


def least(path, folder):
    """The least stack that is enough, in bytes; None where what is promised is not."""
    if not passes(path, folder, PROMISED):
        return None
    low, high = 0, PROMISED // STEP
    while high - low > 1:
        middle = (low + high) // 2
        if passes(path, folder, middle * STEP):
            high = middle
        else:
            low = middle
    return high * STEP


def main():
    wrong = 0
    with tempfile.TemporaryDirectory() as folder:
        for name, text in TEXTS.items():
            path = Path(folder, "f.proto")
            path.write_text(text)
            stack = least(path, folder)
            if stack is None:
                print(f"{name}: more than {PROMISED // 1024} KB")
                wrong = 1
            else:
                print(f"{name}: {stack // 1024} KB")
    return wrong


if __name__ == "__main__":
    sys.exit(main())
