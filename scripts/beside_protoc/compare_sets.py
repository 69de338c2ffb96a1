#!/usr/bin/env python3
"""Compares descriptor sets with those of protoc, and has others read them: docs/protoc.md.

    scripts/beside_protoc/compare_sets.py [--program PROGRAM] [--source_info] FOLDER [INCLUDE..]

Of each .proto file below FOLDER that protoc accepts, with FOLDER and the others as includes, it
takes the set with all imports as protoc writes it, and as PROGRAM does, which is the command. It
tells whether the bytes are the same; whether Python's package for Protocol Buffers reads ours,
writes the same bytes again and makes descriptors of them; and whether protoc takes ours to make
code in Python and in C++. A rule of this library is told apart: see by_our_rules. What protoc and
the command bring of Google's files need not be among the includes. With --source_info both write
places and comments too, of which those of the files that the command brings are not compared, since
their texts are its own. It wants protoc and that package. Its status is 1 where ours are not read
by all."""

import argparse
import collections
import os
import subprocess
import sys
import tempfile

from google.protobuf import descriptor_pb2, descriptor_pool

TOP = os.path.normpath(os.path.join(os.path.dirname(os.path.abspath(__file__)), "../.."))


def schemas(folder):
    """The proto paths of the files below the folder, in order."""
    for at, folders, names in os.walk(folder):
        folders.sort()
        for name in sorted(it for it in names if it.endswith(".proto")):
            yield os.path.relpath(f"{at}/{name}", folder)


def ran(words):
    """Whether the command ended well, and what it said."""
    done = subprocess.run(words, capture_output=True, text=True, errors="replace")
    return done.returncode == 0, done.stderr.strip()


def written(program, includes, path, out, *words):
    """Whether protoc or the command writes the set of a schema."""
    words = [program, *(f"-I{it}" for it in includes), "--include_imports", "-o", out, *words]
    return ran([*words, path])[0]


def content(path):
    try:
        with open(path, "rb") as it:
            return it.read()
    except FileNotFoundError:
        return None


def without_google_places(data):
    """A set in which Google's files have no source info."""
    found = descriptor_pb2.FileDescriptorSet.FromString(data)
    for file in found.file:
        if file.name.startswith("google/protobuf/"):
            file.ClearField("source_code_info")
    return found.SerializeToString()


def by_our_rules(data):
    """A set of protoc as descriptors have it here: no options that a method's empty block makes."""
    found = descriptor_pb2.FileDescriptorSet.FromString(data)
    for file in found.file:
        for method in (it for service in file.service for it in service.method):
            if not method.options.ByteSize():
                method.ClearField("options")
    return found.SerializeToString()


def by_python(data):
    """What Python's package finds wrong with a set."""
    found = descriptor_pb2.FileDescriptorSet.FromString(data)
    if found.SerializeToString() != data:
        return ["Python writes other bytes"]
    pool = descriptor_pool.DescriptorPool()
    try:
        for file in found.file:
            pool.AddSerializedFile(file.SerializeToString())
            pool.FindFileByName(file.name)
    except (TypeError, KeyError) as error:
        return [f"Python: {error}"]
    return []


def generated(kind, path, of, room):
    """Whether protoc makes code of a set, and what it says."""
    return ran(["protoc", f"--descriptor_set_in={of}", f"--{kind}_out={room}", path])


def by_generators(path, of, own, room):
    """What protoc finds wrong with a set when it makes code, where it makes code of its own set."""
    for kind in ("python", "cpp"):
        is_well, said = generated(kind, path, of, room)
        if not is_well and generated(kind, path, own, room)[0]:
            yield f"protoc --{kind}_out: {said}"


def told(at, path, room):
    """How our set of a file is beside that of protoc, and what others find wrong with it."""
    of, own = f"{room}/{at}.ours", f"{room}/{at}.theirs"
    ours, theirs = content(of), content(own)
    if ours is None:
        return "refused by the program alone", []
    wrong = by_python(ours) + list(by_generators(path, of, own, room))
    ours, theirs = without_google_places(ours), without_google_places(theirs)
    if ours == theirs:
        return "the same bytes", wrong
    is_rule = ours == by_our_rules(theirs)
    return "the same bytes but for a method's empty block" if is_rule else "other bytes", wrong


def main():
    parser = argparse.ArgumentParser()
    built = f"{TOP}/crates/protobuf_parse_cli/out/protobuf_parse_cli"
    parser.add_argument("--program", default=built)
    parser.add_argument("--source_info", action="store_true")
    parser.add_argument("folder")
    parser.add_argument("include", nargs="*")
    given = parser.parse_args()
    includes = [os.path.abspath(it) for it in [given.folder, *given.include]]
    flags = ["--include_source_info"] if given.source_info else []
    program = os.path.abspath(given.program)
    counts = collections.Counter()
    with tempfile.TemporaryDirectory() as room:
        for at, path in enumerate(schemas(includes[0])):
            if not written("protoc", includes, path, f"{room}/{at}.theirs", *flags):
                counts["refused by protoc"] += 1
                continue
            written(program, includes, path, f"{room}/{at}.ours", "--rules=off", *flags)
            result, wrong = told(at, path, room)
            counts[result] += 1
            counts["not read by all"] += bool(wrong)
            print("\n".join([f"{path}: {result}", *(f"    {it}" for it in wrong)]))
    print(", ".join(f"{number} {result}" for result, number in sorted(counts.items())))
    return 1 if counts["not read by all"] else 0


if __name__ == "__main__":
    sys.exit(main())
