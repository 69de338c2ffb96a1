#!/usr/bin/env python3
"""Shows that no view outlives its text: docs/base.md.

    scripts/checks/view_outlives_its_text.py

To a copy of crates/protobuf_parse_base it adds functions that look at views of texts that are gone,
and beside each the same with a text that is still there, and has `rt check` read them, which takes
some seconds and proves nothing. It prints what is said of each of the former. The status is 0 if
these alone are refused, by the borrow check."""

import os
import re
import shutil
import subprocess
import sys
import tempfile

TOP = os.path.normpath(os.path.join(os.path.dirname(os.path.abspath(__file__)), "../.."))
CRATE = "crates/protobuf_parse_base"

# What owns a text, a view of it, and what is asked of the view.
VIEWS = (
    ("ProtobufIdent", "owner.as_ref()", 'view.as_str() == "a"'),
    ("ProtobufIdent", "owner.get()", 'view == "a"'),
    ("ProtobufRelPath", "owner.as_ref()", "view.is_empty()"),
    ("ProtobufRelPath", "owner.as_ref().components().next()", "view.is_some()"),
    ("ProtobufAbsPath", "owner.as_ref()", "view.is_root()"),
    ("ProtobufAbsPath", "owner.remove_suffix(ProtobufRelPathRef::empty())", "view.is_some()"),
    ("ProtoPathBuf", "owner.as_path()", 'view.to_str() == "a"'),
    ("String", "ProtoPath::new(owner.as_str())", "view.is_ok()"),
    ("String", "ProtobufAbsPathRef::try_new(owner.as_str())", "view.is_some()"),
)

HEAD = """//! Views of texts that are gone, and of texts that are still there.

use crate::names::{
    ProtobufAbsPath, ProtobufAbsPathRef, ProtobufIdent, ProtobufRelPath, ProtobufRelPathRef,
};
use crate::proto_path::{ProtoPath, ProtoPathBuf};
"""


def source():
    """The functions, and for each line the name of the function that it is in."""
    lines = HEAD.split("\n")
    for i, (owner, view, use) in enumerate(VIEWS):
        given, view = f"(given: {owner}) -> bool {{", f"view = {view};"
        owner = "let owner = given;"
        lines += [f"pub fn gone_{i}{given}", "let view;", "{", owner, view, "}", use, "}"]
        lines += [f"pub fn there_{i}{given}", "let view;", owner, "{", view, "}", use, "}"]
    names, name = [], ""
    for line in lines:
        if line.startswith("pub fn "):
            name = line[len("pub fn ") : line.index("(")]
        names.append(name)
    return "\n".join(lines) + "\n", names


def read_by_rt(text):
    """What `rt check` writes of the crate with this file."""
    with tempfile.TemporaryDirectory() as folder:
        shutil.copytree(
            f"{TOP}/{CRATE}", f"{folder}/{CRATE}", ignore=shutil.ignore_patterns("out", "must-fail")
        )
        with open(f"{TOP}/crates.txt", encoding="utf-8") as file:
            own = [line for line in file if line.startswith("protobuf_parse_base:")]
        with open(f"{folder}/crates.txt", "w", encoding="utf-8") as file:
            file.writelines(own)
        with open(f"{folder}/{CRATE}/src/lib.rt", "a", encoding="utf-8") as file:
            file.write("mod outliving;\n")
        with open(f"{folder}/{CRATE}/src/outliving.rt", "w", encoding="utf-8") as file:
            file.write(text)
        words = ["rt", "check", "--only", ""]
        run = subprocess.run(
            words, cwd=f"{folder}/{CRATE}", stdout=subprocess.PIPE, stderr=subprocess.STDOUT
        )
        return run.stdout.decode(errors="replace")


def main():
    text, names = source()
    said = read_by_rt(text)
    refused, others = {}, []
    for line in said.split("\n"):
        told = re.match(r"src/outliving.rt:(\d+):\d+: error\[borrow-e0597\]: ([^:]*)", line)
        if told:
            refused[names[int(told[1]) - 1]] = told[2]
        elif "error" in line:
            others.append(line)
    for i, (owner, view, _) in enumerate(VIEWS):
        print(f"{view} of a {owner}: {refused.get(f'gone_{i}', 'NOT REFUSED')}")
    wanted = {f"gone_{i}" for i in range(len(VIEWS))}
    for name in sorted(set(refused) - wanted):
        print(f"{name}, whose text is still there, is refused: {refused[name]}")
    print("".join(f"{line}\n" for line in others), end="")
    return 0 if set(refused) == wanted and not others else 1


sys.exit(main())
