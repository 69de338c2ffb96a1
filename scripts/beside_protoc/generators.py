#!/usr/bin/env python3
"""Has protoc make code of our descriptor sets in seven languages, beside that of its own sets.

    scripts/beside_protoc/generators.py [--program PROGRAM]

Schemas are one for each file of Google that the library brings, which has a field of each message
and enum of it, two more, and those of crates/protobuf_parse_cli/data. Of each, PROGRAM (the
command) writes a set with all imports, and no include of it has Google's files; protoc writes one
too. Told is where the sets differ, where the code that protoc makes of them does, of each file in
the set, and what Python's package finds wrong with ours: it makes descriptors of the files, and of
each message one with all fields set, which has to come back from its bytes. It wants protoc and
that package. Its status is 1 where anything is told."""

import argparse
import collections
import filecmp
import os
import subprocess
import sys
import tempfile
from pathlib import Path

from google.protobuf import descriptor_pb2, descriptor_pool, message_factory

TOP = Path(__file__).resolve().parents[2]
KINDS = ["python", "cpp", "java", "csharp", "objc", "php", "ruby"]
GOOGLES = """
any api compiler/plugin descriptor duration empty field_mask source_context struct timestamp type
wrappers
""".split()
MORE = {
    "moment.proto": """syntax = "proto3";
import "google/protobuf/timestamp.proto";
message Moment { google.protobuf.Timestamp at = 1; }
""",
    "noted.proto": """syntax = "proto2";
import "google/protobuf/descriptor.proto";
extend google.protobuf.FileOptions { optional string note = 50000; }
extend google.protobuf.MessageOptions {
  optional google.protobuf.FieldDescriptorProto like = 50000;
}
extend google.protobuf.FieldOptions { optional google.protobuf.FieldOptions.CType kind = 50000; }
option (note) = "a file";
message Noted {
  option (like) = { name: "a" type: TYPE_INT32 };
  optional string text = 1 [(kind) = CORD];
}
""",
}


def ran(*words):
    """Whether the command ended well, and what it said."""
    words = [str(it) for it in words]
    done = subprocess.run(words, capture_output=True, text=True, errors="replace")
    return done.returncode == 0, (done.stdout + done.stderr).strip()


def files_in(of):
    """The files of a set."""
    return descriptor_pb2.FileDescriptorSet.FromString(of.read_bytes()).file


# Schemas


def declared(google, room):
    """The file itself as protoc describes it, without what it imports."""
    of = room / "google.pb"
    is_well, said = ran("protoc", f"--descriptor_set_out={of}", google)
    if not is_well:
        sys.exit(said)
    return files_in(of)[0]


def user_of(google, room):
    """A schema with a field of each message and enum of the file."""
    file = declared(google, room)
    names = [it.name for it in [*file.message_type, *file.enum_type]]
    lines = ['syntax = "proto3";', "package uses;", f'import "{google}";', "message All {"]
    for number, name in enumerate(names, 1):
        lines.append(f"  {file.package}.{name} field_{number} = {number};")
    return "\n".join([*lines, "}", ""])


def made(room):
    """The schemas that are made, written to a folder: it, and their paths."""
    folder = room / "schemas"
    folder.mkdir()
    texts = dict(MORE)
    for it in GOOGLES:
        texts[f"uses_{it.replace('/', '_')}.proto"] = user_of(f"google/protobuf/{it}.proto", room)
    for name, text in texts.items():
        (folder / name).write_text(text)
    return [folder], sorted(texts)


def of_command():
    """The includes of the command's data, and the files below them."""
    data = TOP / "crates/protobuf_parse_cli/data"
    includes = [data / "schemas", data / "vendor"]
    paths = [str(it.relative_to(at)) for at in includes for it in at.rglob("*.proto")]
    return includes, sorted(paths)


# What others make of a set


def code_of(kind, of, paths, folder):
    """The folder with the code that protoc makes of these files of a set, and what it says of each
    file, which is empty where all is well."""
    at = folder / kind
    at.mkdir(parents=True)
    words = ["protoc", f"--descriptor_set_in={of}", f"--{kind}_out={at}"]
    return at, [ran(*words, it)[1] for it in paths]


def written(folder):
    return sorted(str(it.relative_to(folder)) for it in folder.rglob("*") if it.is_file())


def beside(kind, ours, own, room):
    """Where the code of our set differs from that of protoc's own, and how many files it has."""
    paths = [it.name for it in files_in(own)]
    at, said = code_of(kind, ours, paths, room / "ours")
    own_at, own_said = code_of(kind, own, paths, room / "own")
    both = [it for it in zip(paths, said, own_said) if it[1] != it[2]]
    wrong = [f"{kind}: protoc says of {path}: {of_ours}" for path, of_ours, _ in both]
    names = written(own_at)
    if written(at) != names:
        wrong.append(f"{kind}: other files: {sorted(set(written(at)) ^ set(names))}")
        names = [it for it in names if (at / it).is_file()]
    differing = filecmp.cmpfiles(at, own_at, names, shallow=False)
    return wrong + [f"{kind}: other code: {it}" for it in differing[1] + differing[2]], len(names)


def scalar(field):
    """A value of a field that is no message."""
    if field.enum_type:
        return field.enum_type.values[-1].number
    return {field.TYPE_STRING: "a", field.TYPE_BYTES: b"\xff"}.get(field.type, 1)


def fill_map(entries, entry, depth):
    """Puts an entry into a map."""
    key, value = scalar(entry.fields_by_name["key"]), entry.fields_by_name["value"]
    if value.message_type:
        fill(entries[key], depth + 1)
    else:
        entries[key] = scalar(value)


def fill(message, depth=0):
    """Sets all fields, those of messages inside down to a depth."""
    for field in message.DESCRIPTOR.fields:
        value, inside = getattr(message, field.name), field.message_type
        is_list = field.label == field.LABEL_REPEATED
        if inside and depth == 2:
            continue
        if inside and inside.GetOptions().map_entry:
            fill_map(value, inside, depth)
        elif inside:
            fill(value.add() if is_list else value, depth + 1)
        elif is_list:
            value.append(scalar(field))
        else:
            setattr(message, field.name, scalar(field))


def with_nested(messages):
    for it in messages:
        yield it
        yield from with_nested(it.nested_types)


def by_python(of):
    """What Python's package finds wrong with a set, and how many messages it made."""
    pool, count = descriptor_pool.DescriptorPool(), 0
    data = of.read_bytes()
    if descriptor_pb2.FileDescriptorSet.FromString(data).SerializeToString() != data:
        return ["Python writes other bytes"], 0
    try:
        for file in files_in(of):
            pool.AddSerializedFile(file.SerializeToString())
        factory = message_factory.MessageFactory(pool)
        for file in files_in(of):
            top = pool.FindFileByName(file.name).message_types_by_name.values()
            for it in with_nested(top):
                message = factory.GetPrototype(it)()
                fill(message)
                if type(message).FromString(message.SerializePartialToString()) != message:
                    return [f"Python: {it.full_name} doesn't come back"], count
                count += 1
    except (TypeError, KeyError, ValueError) as error:
        return [f"Python: {error}"], count
    return [], count


# All schemas


def told(program, includes, path, room, counts):
    """What is wrong with our set of a schema. It counts the files of code and the messages."""
    ours, own = room / "ours.pb", room / "own.pb"
    words = [*(f"-I{it}" for it in includes), "--include_imports", path]
    for name, of, by in [("the program", ours, program), ("protoc", own, "protoc")]:
        is_well, said = ran(by, *words, "-o", of)
        if not is_well:
            return [f"refused by {name}: {said}"]
    wrong = [] if ours.read_bytes() == own.read_bytes() else ["another set"]
    for kind in KINDS:
        differing, count = beside(kind, ours, own, room)
        wrong += differing
        counts[kind] += count
    differing, messages = by_python(ours)
    counts["messages"] += messages
    return wrong + differing


def main():
    parser = argparse.ArgumentParser()
    built = TOP / "crates/protobuf_parse_cli/out/protobuf_parse_cli"
    parser.add_argument("--program", default=str(built))
    program = os.path.abspath(parser.parse_args().program)
    counts = collections.Counter()
    with tempfile.TemporaryDirectory() as top:
        schemas = [(at, it) for at, paths in [made(Path(top)), of_command()] for it in paths]
        for includes, path in schemas:
            with tempfile.TemporaryDirectory(dir=top) as room:
                lines = told(program, includes, path, Path(room), counts)
            counts["schemas that differ"] += bool(lines)
            print("\n    ".join([f"{path}: {'differs' if lines else 'the same'}", *lines]))
    print(f"{len(schemas)} schemas; files of code and messages of Python's package that are made:")
    print(", ".join(f"{counts[it]} {it}" for it in [*KINDS, "messages", "schemas that differ"]))
    return 1 if counts["schemas that differ"] else 0


if __name__ == "__main__":
    sys.exit(main())
