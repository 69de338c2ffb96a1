#!/usr/bin/env python3
"""Lists schemas with protoc and with the program, and prints where they differ: docs/protoc.md.

    scripts/beside_protoc/compare_with_protoc.py [--program PROGRAM] FOLDER

It goes through each .proto file below FOLDER, which is the include of both, writes what protoc's
descriptor says as a listing, and compares it with that of parse-and-typecheck, line for line. It
wants protoc and Python's package for Protocol Buffers. Its status is 1 where anything differs."""

import argparse
import collections
import difflib
import os
import subprocess
import sys
import tempfile

from google.protobuf import descriptor_pb2

TOP = os.path.normpath(os.path.join(os.path.dirname(os.path.abspath(__file__)), "../.."))
LABELS = {1: "optional", 2: "required", 3: "repeated"}
NAMED = (10, 11, 14)  # group, message, enum: the kinds of a field with the name of a type


def escaped(text):
    """A text or bytes between quotes, as the listing writes them."""
    short = {9: "\\t", 10: "\\n", 13: "\\r", 34: '\\"', 39: "\\'", 92: "\\\\"}
    data = text.encode() if isinstance(text, str) else text
    plain = [chr(it) if 32 <= it < 127 else f"\\{it:03o}" for it in range(256)]
    return '"' + "".join(short.get(it, plain[it]) for it in data) + '"'


def varint(data, at):
    """The number that begins there, and where the next thing begins."""
    number = shift = 0
    while data[at] >= 128:
        number, shift, at = number | (data[at] & 127) << shift, shift + 7, at + 1
    return number | data[at] << shift, at + 1


def after_record(data, at):
    """The field number of the record that begins there, and where the next begins."""
    tag, at = varint(data, at)
    kind = tag & 7
    if kind == 0:
        at = varint(data, at)[1]
    elif kind == 2:
        length, at = varint(data, at)
        at += length
    elif kind == 3:
        while varint(data, at)[0] & 7 != 4:
            at = after_record(data, at)[1]
        at = varint(data, at)[1]
    else:
        at += 8 if kind == 1 else 4
    return tag >> 3, at


def options(value, room):
    """Built-in options in the order of their numbers, and all bytes of the others."""
    known = {it.number: it for it in value.DESCRIPTOR.fields if it.number < 999}
    for number in sorted(known):
        field = known[number]
        if not value.HasField(field.name):
            continue
        said = getattr(value, field.name)
        if field.type == field.TYPE_ENUM:
            said = field.enum_type.values_by_number[said].name
        elif field.type == field.TYPE_BOOL:
            said = "true" if said else "false"
        else:
            said = escaped(said)
        yield f"{room}option {field.name} = {said}"
    data, at, custom = value.SerializeToString(), 0, b""
    while at < len(data):
        number, end = after_record(data, at)
        custom += b"" if number in known else data[at:end]
        at = end
    if custom:
        yield f"{room}custom {custom.hex()}"


def field(value, room, extends):
    kind = descriptor_pb2.FieldDescriptorProto.Type.Name(value.type)[5:].lower()
    kind += f" {value.type_name}" if value.type in NAMED else ""
    head = f"extension {value.extendee}" if extends else "field"
    json = escaped(value.json_name)
    line = f"{room}{head} {LABELS[value.label]} {kind} {value.name} = {value.number} json {json}"
    line += f" default {escaped(value.default_value)}" if value.HasField("default_value") else ""
    line += f" oneof {value.oneof_index}" if value.HasField("oneof_index") else ""
    yield line + (" proto3_optional" if value.proto3_optional else "")
    yield from options(value.options, room + "  ")


def reserved(value, room):
    for it in value.reserved_range:
        yield f"{room}reserved_range {it.start} {it.end}"
    for name in value.reserved_name:
        yield f"{room}reserved_name {escaped(name)}"


def enumeration(value, room):
    yield f"{room}enum {value.name}"
    room += "  "
    yield from options(value.options, room)
    for it in value.value:
        yield f"{room}value {it.name} = {it.number}"
        yield from options(it.options, room + "  ")
    yield from reserved(value, room)


def message(value, room):
    yield f"{room}message {value.name}"
    room += "  "
    yield from options(value.options, room)
    for it in value.field:
        yield from field(it, room, False)
    for it in value.oneof_decl:
        yield f"{room}oneof {it.name}"
        yield from options(it.options, room + "  ")
    for it in value.nested_type:
        yield from message(it, room)
    for it in value.enum_type:
        yield from enumeration(it, room)
    for it in value.extension:
        yield from field(it, room, True)
    for it in value.extension_range:
        yield f"{room}extension_range {it.start} {it.end}"
    yield from reserved(value, room)


def service(value, room):
    yield f"{room}service {value.name}"
    room += "  "
    yield from options(value.options, room)
    for it in value.method:
        line = f"{room}method {it.name} {it.input_type} {it.output_type}"
        line += " client_streaming" if it.client_streaming else ""
        yield line + (" server_streaming" if it.server_streaming else "")
        yield from options(it.options, room + "  ")


def file(value):
    yield f"file {value.name}"
    yield f"  syntax {value.syntax or 'proto2'}"
    if value.package:
        yield f"  package {value.package}"
    for at, path in enumerate(value.dependency):
        is_weak = "weak " if at in value.weak_dependency else ""
        yield f"  import {'public ' if at in value.public_dependency else is_weak}{path}"
    yield from options(value.options, "  ")
    for kind, values in ((message, value.message_type), (enumeration, value.enum_type)):
        for it in values:
            yield from kind(it, "  ")
    for it in value.service:
        yield from service(it, "  ")
    for it in value.extension:
        yield from field(it, "  ", True)


def by_protoc(folder, path, room):
    """The lines of the file by protoc, or the first line of what it refuses."""
    out = f"{room}/set.pb"
    words = ["protoc", f"-I{folder}", f"--descriptor_set_out={out}", path]
    ran = subprocess.run(words, cwd=folder, capture_output=True, text=True)
    if ran.returncode:
        return None, (ran.stderr.splitlines() or ["refused"])[0]
    found = descriptor_pb2.FileDescriptorSet()
    with open(out, "rb") as it:
        found.ParseFromString(it.read())
    return list(file(found.file[-1])), ""


def by_program(program, folder, path):
    """The lines of the file by the program, which lists it last, or the line of its fault."""
    words = [program, f"{folder}/{path}", folder]
    ran = subprocess.run(words, capture_output=True, text=True, errors="replace")
    if ran.returncode:
        return None, ran.stderr.strip()
    lines = ran.stdout.splitlines()
    first = max(at for at, it in enumerate(lines) if it.startswith("file "))
    return lines[first:], ""


def compared(program, folder, path, room):
    """What to count the file as, and the lines to print of it."""
    theirs, why_theirs = by_protoc(folder, path, room)
    ours, why_ours = by_program(program, folder, path)
    if theirs is None and ours is None:
        return "refused by both", []
    if theirs is None:
        return "refused by protoc alone", [f"protoc: {why_theirs}"]
    if ours is None:
        return "refused by the program alone", [f"the program: {why_ours}"]
    if theirs == ours:
        return "equal", []
    both = difflib.unified_diff(theirs, ours, "protoc", "the program", n=0, lineterm="")
    return "different", list(both)


def main():
    parser = argparse.ArgumentParser()
    built = f"{TOP}/crates/protobuf_parse_program/out/protobuf_parse_program"
    parser.add_argument("--program", default=built)
    parser.add_argument("folder")
    given = parser.parse_args()
    folder, program = os.path.abspath(given.folder), os.path.abspath(given.program)
    counts = collections.Counter()
    with tempfile.TemporaryDirectory() as room:
        for at, folders, names in os.walk(folder):
            folders.sort()
            for name in sorted(it for it in names if it.endswith(".proto")):
                path = os.path.relpath(f"{at}/{name}", folder)
                result, lines = compared(program, folder, path, room)
                counts[result] += 1
                print("\n".join([f"{path}: {result}", *(f"    {it}" for it in lines)]))
    print(", ".join(f"{number} {result}" for result, number in sorted(counts.items())))
    return 1 if set(counts) - {"equal", "refused by both"} else 0


if __name__ == "__main__":
    sys.exit(main())
