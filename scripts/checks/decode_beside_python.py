#!/usr/bin/env python3
"""Holds what `decode` says of messages against Python's package for Protocol Buffers.

    scripts/checks/decode_beside_python.py [--program CASES] [--seed N] [--count N]

makes random schemas of all types, messages of them by Python, puts unknown fields, groups and
records of other sorts between their fields, takes some apart and damages others, and writes them as
a file of cases (`decode`, docs/testing.md) whose answers a plain reader in this file gives: the
fields in order, or the fault with its byte. The program of the cases runs it. Then each singular
field's last value, each list and each merged message is held against what Python read of the same
bytes, and Python must refuse what has a fault, but for what it is known to take (TAKEN). It wants
`protoc` and Python's package. The status is 1 where something differs."""

import argparse
import random
import re
import struct
import subprocess
import sys
import tempfile
from collections import Counter
from pathlib import Path

from google.protobuf import descriptor_pb2, descriptor_pool, message_factory
from google.protobuf.descriptor import FieldDescriptor as F
from google.protobuf.message import DecodeError

PROGRAM = "crates/protobuf_parse_cases/out/protobuf_parse_cases"
# So many messages of one schema.
OF_ONE = 100
INTS = "int32 int64 uint32 uint64 sint32 sint64 fixed32 sfixed32 fixed64 sfixed64".split()
SCALARS = [*INTS, "bool", "string", "bytes", "float", "double"]
KEYS = [*INTS, "bool", "string"]
VARINT, FIXED64, LEN, START, END, FIXED32 = range(6)
TOO_LARGE = "a varint has more than 64 bits"


def schema(choose, syntax):
    """A file that declares a message M with fields of all types, and N and E that it uses."""
    proto3, lines = syntax == "proto3", [f'syntax = "{syntax}"; package p;']
    lines.append("enum E { ZERO = 0; ONE = 1; LOW = -5; }")
    lines.append("message N { " + ("" if proto3 else "optional ") + "int32 a = 1; repeated N n = 2;")
    lines.append(("" if proto3 else "optional ") + "string s = 3; repeated sint32 r = 4; }")
    lines.append("message M {")
    numbers = iter(choose.sample([*range(1, 60), 1000, 200000, 536870911], 40))
    if not proto3:
        lines.append("extensions 70 to 90;")

    def field(label, type_, more=""):
        lines.append(f"{label} {type_} f{len(lines)} = {next(numbers)}{more};")

    one = "" if proto3 else "optional"
    for type_ in choose.sample([*SCALARS, "E", "N", "M"], 9):
        field(one, type_)
    for type_ in choose.sample([*SCALARS, "E", "N"], 8):
        packs = type_ not in ("string", "bytes", "N") and choose.random() < 0.6
        field("repeated", type_, f" [packed = {choose.choice(['true', 'false'])}]" if packs else "")
    for _ in range(2):
        field("", f"map<{choose.choice(KEYS)}, {choose.choice([*SCALARS, 'E', 'N'])}>")
    lines.append("oneof o {")
    for type_ in choose.sample([*SCALARS, "E", "N"], 4):
        field("", type_)
    lines.append("}")
    if not proto3:
        for label in ("optional", "repeated"):
            lines.append(f"{label} group G{len(lines)} = {next(numbers)} {{ optional int32 a = 1;")
            lines.append("repeated fixed32 b = 2; optional N n = 3; }")
    lines.append("}")
    if not proto3:
        lines.append("extend M {")
        for number in (70, 75, 80):
            label = choose.choice(["optional", "repeated"])
            lines.append(f"{label} {choose.choice([*SCALARS, 'E', 'N'])} x{number} = {number};")
        lines.append("}")
    return "\n".join(lines)


# ---- messages


def value_of(choose, field):
    kind = field.type
    if kind in (F.TYPE_STRING,):
        return choose.choice(["", "a", "ä€😀", "x" * choose.randrange(200)])
    if kind == F.TYPE_BYTES:
        return bytes(choose.randrange(256) for _ in range(choose.randrange(9)))
    if kind in (F.TYPE_FLOAT, F.TYPE_DOUBLE):
        return choose.choice([0.0, -0.0, 1.5, -3.25, 1e10, float("inf"), choose.uniform(-9, 9)])
    if kind == F.TYPE_BOOL:
        return choose.random() < 0.5
    if kind == F.TYPE_ENUM:
        return choose.choice([0, 1, -5])
    bits = 32 if "32" in INTS_OF[kind] else 64
    signed = not INTS_OF[kind].startswith(("u", "fixed"))
    low, high = (-(1 << bits - 1), (1 << bits - 1) - 1) if signed else (0, (1 << bits) - 1)
    return choose.choice([0, 1, low, high, choose.randint(low, high), choose.randrange(300)])


INTS_OF = {getattr(F, f"TYPE_{word.upper()}"): word for word in INTS}


def is_map(field):
    of = field.message_type
    return of is not None and of.GetOptions().map_entry


def fill(choose, message, levels):
    """Sets some fields of the message."""
    pool = message.DESCRIPTOR.file.pool
    extensions = pool.FindAllExtensions(message.DESCRIPTOR)
    for field in [*message.DESCRIPTOR.fields, *extensions]:
        if choose.random() < 0.6 or field.message_type is not None and levels == 0:
            continue
        many = choose.randrange(1, 4)
        if is_map(field):
            for _ in range(many):
                key = value_of(choose, field.message_type.fields_by_name["key"])
                inner = field.message_type.fields_by_name["value"]
                if inner.message_type is not None:
                    fill(choose, getattr(message, field.name)[key], levels - 1)
                else:
                    getattr(message, field.name)[key] = value_of(choose, inner)
        elif field.message_type is not None:
            at = message.Extensions[field] if field.is_extension else getattr(message, field.name)
            for _ in range(many if field.label == F.LABEL_REPEATED else 1):
                inside = at.add() if field.label == F.LABEL_REPEATED else at
                inside.SetInParent() if field.label != F.LABEL_REPEATED else None
                fill(choose, inside, levels - 1)
        elif field.label == F.LABEL_REPEATED:
            at = message.Extensions[field] if field.is_extension else getattr(message, field.name)
            at.extend(value_of(choose, field) for _ in range(many))
        elif field.is_extension:
            message.Extensions[field] = value_of(choose, field)
        else:
            setattr(message, field.name, value_of(choose, field))


def varint(number):
    out = bytearray()
    while number > 127:
        out.append(number % 128 + 128)
        number //= 128
    return bytes([*out, number])


def record(choose, number, levels=2):
    """A record of any wire type."""
    wire = choose.choice([VARINT, FIXED64, LEN, START, FIXED32] if levels else [VARINT, LEN])
    tag = varint(number * 8 + wire)
    if wire == VARINT:
        return tag + varint(choose.choice([0, 1, 300, (1 << 64) - 1, choose.getrandbits(64)]))
    if wire == LEN:
        return tag + (lambda bs: varint(len(bs)) + bs)(choose.randbytes(choose.randrange(6)))
    if wire == START:
        inside = b"".join(record(choose, choose.randrange(1, 9), levels - 1) for _ in range(2))
        return tag + inside + varint(number * 8 + END)
    return tag + choose.randbytes(8 if wire == FIXED64 else 4)


def bytes_of(choose, factory):
    """Bytes of a message, or nearly."""
    message = factory()
    fill(choose, message, 3)
    data = message.SerializeToString()
    if choose.random() < 0.3:
        fill(choose, message, 2)
        data += message.SerializeToString()
    try:
        cuts = [at for at, *_ in records(data, 0)]
    except Wrong:
        cuts = [0]
    for _ in range(choose.choice([0, 0, 1, 3])):
        at = choose.choice([*cuts, len(data)])
        number = choose.choice([*range(1, 90), 1000, 60000])
        data = data[:at] + record(choose, number) + data[at:]
        cuts = [0]
    if choose.random() < 0.25 and data:
        at = choose.randrange(len(data))
        damaged = choose.choice([data[:at], data[:at] + choose.randbytes(1) + data[at + 1 :]])
        return damaged
    return data


# ---- the plain reader

# The extensions of the schema, by what they extend and by number.
EXTENSIONS = {}

class Wrong(Exception):
    pass


def first_varint(data, at):
    number = 0
    for i in range(10):
        if at + i >= len(data):
            raise Wrong(at, "the bytes end inside a record")
        number += (data[at + i] & 127) << 7 * i
        if data[at + i] < 128:
            if number >> 64:
                raise Wrong(at, TOO_LARGE)
            return number, at + i + 1
    raise Wrong(at, TOO_LARGE)


def part(data, at, length):
    if at + length > len(data):
        raise Wrong(at, "the bytes end inside a record")
    return data[at : at + length], at + length


def tag_at(data, at):
    tag, behind = first_varint(data, at)
    if not 0 < tag // 8 < 1 << 29:
        raise Wrong(at, "no field has this number")
    if tag % 8 > 5:
        raise Wrong(at, "there is no such wire type")
    return tag // 8, tag % 8, behind


def payload_at(data, at, number, wire, behind):
    if wire == VARINT:
        return first_varint(data, behind)
    if wire in (FIXED64, FIXED32):
        found, end = part(data, behind, 8 if wire == FIXED64 else 4)
        return int.from_bytes(found, "little"), end
    if wire == LEN:
        length, behind = first_varint(data, behind)
        _, end = part(data, behind, length)
        return (behind, end), end
    if wire == END:
        raise Wrong(at, "a group ends that is not open")
    open_, start = [number], behind
    while True:
        if behind >= len(data):
            raise Wrong(behind, "the bytes end inside a record")
        last, (inner, wire, after) = behind, tag_at(data, behind)
        if wire == START:
            if len(open_) >= 100:
                raise Wrong(behind, "more than 100 groups stand inside one another")
            open_.append(inner)
            behind = after
        elif wire == END:
            if open_.pop() != inner:
                raise Wrong(behind, "a group ends that is not open")
            behind = after
            if not open_:
                return (start, last), behind
        else:
            _, behind = payload_at(data, behind, inner, wire, after)


def records(data, at):
    """(offset, number, wire type, payload, end) of each, of data up to its end."""
    found = []
    while at < len(data):
        number, wire, behind = tag_at(data, at)
        payload, end = payload_at(data, at, number, wire, behind)
        found.append((at, number, wire, payload, end))
        at = end
    return found


def says(kind, word):
    """A value with its text."""
    if kind in (F.TYPE_FLOAT, F.TYPE_DOUBLE):
        name, size = ("float", "<I") if kind == F.TYPE_FLOAT else ("double", "<Q")
        return struct.unpack("<f" if name == "float" else "<d", struct.pack(size, word))[0], f"{name} {word}"
    if kind == F.TYPE_BOOL:
        return word > 0, f"{'true' if word else 'false'}@{word}"
    name = INTS_OF.get(kind, "int32")
    bits = 32 if "32" in name else 64
    number = word % (1 << bits)
    if name.startswith("sint"):
        number = number // 2 if number % 2 == 0 else -(number // 2) - 1
    elif not name.startswith(("u", "fixed")) and number >> bits - 1:
        number -= 1 << bits
    return number, f"{number}" if number == word else f"{number}@{word}"


EXPECTED = {"fixed64": FIXED64, "sfixed64": FIXED64, "fixed32": FIXED32, "sfixed32": FIXED32}
STANDS = {kind: EXPECTED.get(word, VARINT) for kind, word in INTS_OF.items()}
STANDS |= {F.TYPE_BOOL: VARINT, F.TYPE_ENUM: VARINT, F.TYPE_FLOAT: FIXED32, F.TYPE_DOUBLE: FIXED64}


def quoted(data):
    names = {9: "\\t", 10: "\\n", 13: "\\r", 34: '\\"', 39: "\\'", 92: "\\\\"}
    return "".join(names.get(b) or (chr(b) if 32 <= b < 127 else f"\\{b:03o}") for b in data)


def decoded(data, start, of, levels, at=0):
    """The fields: (number, descriptor, values, text)."""
    if levels == 0:
        raise Wrong(at, "more than 100 messages stand inside one another")
    found = []
    for at, number, wire, payload, end in records(data, start):
        field = of.fields_by_number.get(number) or EXTENSIONS.get((of, number))
        values, kind = None, field.type if field else None
        if field is None:
            pass
        elif kind in STANDS:
            if wire == STANDS[kind]:
                values = [says(kind, payload)]
            elif wire == LEN and field.label == F.LABEL_REPEATED:
                inner, values = payload[0], []
                while inner < payload[1]:
                    if STANDS[kind] == VARINT:
                        word, inner = first_varint(data[: payload[1]], inner)
                    else:
                        size = 8 if STANDS[kind] == FIXED64 else 4
                        word, inner = part(data[: payload[1]], inner, size)
                        word = int.from_bytes(word, "little")
                    values.append(says(kind, word))
        elif kind in (F.TYPE_MESSAGE, F.TYPE_GROUP):
            if wire == (LEN if kind == F.TYPE_MESSAGE else START):
                inside = decoded(data[: payload[1]], payload[0], field.message_type, levels - 1, at)
                values = [(inside, text_of(inside))]
        elif wire == LEN:
            said = data[slice(*payload)]
            if kind == F.TYPE_STRING and field.file.syntax == "proto3":
                try:
                    said.decode()
                except UnicodeDecodeError:
                    raise Wrong(payload[0], "a string is not UTF-8") from None
                values = [(said, f'"{quoted(said)}"')]
            else:
                values = [(said, f'b"{quoted(said)}"')]
        text = f"{number} ? {data[at:end].hex()}"
        if values is not None:
            text = " ".join([f"{number} =", *(said for _, said in values)])
        found.append((number, field, values, text))
    return found


def text_of(fields):
    return "{" + ", ".join(text for *_, text in fields) + "}"


# ---- beside Python


def same(ours, theirs):
    if isinstance(ours, float):
        return struct.pack("<d", ours) == struct.pack("<d", theirs) or ours != ours != theirs
    return ours == theirs


def plain(field, value):
    """The value as Python has it: a string that is no UTF-8 as its bytes."""
    if not isinstance(value, bytes) or field.type != F.TYPE_STRING:
        return value
    try:
        return value.decode()
    except UnicodeDecodeError:
        return value


def is_closed(field):
    return field.type == F.TYPE_ENUM and field.enum_type.file.syntax != "proto3"


def differs(fields, message):
    """A name of a field of which Python has something else, or None."""
    by_number, last_of = {}, {}
    for number, field, values, _ in fields:
        if not field or values is None:
            continue
        counts = [
            v for v, _ in values if not is_closed(field) or v in field.enum_type.values_by_number
        ]
        if field.containing_oneof and counts:
            if last_of.get(field.containing_oneof) not in (None, number):
                by_number.pop(last_of[field.containing_oneof], None)
            last_of[field.containing_oneof] = number
        if counts or not is_closed(field):
            by_number.setdefault(number, (field, []))[1].extend(counts)
    for field, values in by_number.values():
        at = message.Extensions[field] if field.is_extension else getattr(message, field.name)
        if is_map(field):
            entries = {}
            key, value = (field.message_type.fields_by_name[it] for it in ("key", "value"))
            for entry in values:
                had = {f.number: v[-1][0] for _, f, v, _ in entry if f and v}
                entries[plain(key, had.get(1, key.default_value))] = entry
            if any(not values_of_closed(entry, value) for entry in entries.values()):
                continue
            if set(entries) != set(at):
                return field.name
        elif field.message_type is not None:
            each = zip(values, at) if field.label == F.LABEL_REPEATED else [(sum(values, []), at)]
            if field.label == F.LABEL_REPEATED and len(values) != len(at):
                return field.name
            for inside, of in each:
                if name := differs(inside, of):
                    return f"{field.name}.{name}"
        elif field.label == F.LABEL_REPEATED:
            ours = [plain(field, value) for value in values]
            if len(ours) != len(at) or not all(map(same, ours, at)):
                return field.name
        elif values and not same(plain(field, values[-1]), at):
            return field.name
    return None


def values_of_closed(entry, value):
    """Whether each value of a map's entry is one of its enum, if that is closed."""
    return not is_closed(value) or all(
        v in value.enum_type.values_by_number for _, f, vs, _ in entry if f and f.number == 2 for v, _ in vs or []
    )


def is_taken(data, answer):
    """Whether Python takes such a fault: it leaves out a varint's bits behind the 64th, and reads no
    further than a tag that is 0 or ends a group."""
    if TOO_LARGE in answer:
        return True
    try:
        tag, _ = first_varint(data, int(re.match(r"byte (\d+)", answer)[1]))
    except Wrong:
        return False
    return tag == 0 or tag % 8 == END


def compiled(text, room):
    (Path(room) / "f.proto").write_text(text)
    words = ["protoc", f"-I{room}", f"-o{room}/f.pb", f"{room}/f.proto"]
    subprocess.run(words, check=True)
    pool = descriptor_pool.DescriptorPool()
    for file in descriptor_pb2.FileDescriptorSet.FromString(Path(f"{room}/f.pb").read_bytes()).file:
        pool.Add(file)
    of = pool.FindMessageTypeByName("p.M")
    return of, message_factory.MessageFactory(pool).GetPrototype(of)


def tries(choose, program, room, counts):
    """Runs messages of one schema, and yields what is wrong."""
    syntax = choose.choice(["proto2", "proto3"])
    text = schema(choose, syntax)
    of, factory = compiled(text, room)
    extensions = {(it.containing_type, it.number): it for it in of.file.pool.FindAllExtensions(of)}
    EXTENSIONS.clear()
    EXTENSIONS.update(extensions)
    rows, given = [], []
    for _ in range(OF_ONE):
        data = bytes_of(choose, factory)
        try:
            fields, answer = decoded(data, 0, of, 100), None
            answer = text_of(fields)
        except Wrong as wrong:
            fields, answer = None, f"byte {wrong.args[0]}: {wrong.args[1]}"
        rows.append(f"{data.hex() or '«»'} => {answer}")
        given.append((data, fields, answer))
    cases = f"x\n\n=== made\ndecode .p.M over f.proto\n-- f.proto --\n{text}\n-- rows --\n"
    path = Path(room) / "made.cases"
    path.write_text(cases + "\n".join(rows) + "\n")
    done = subprocess.run([program, str(path)], capture_output=True, text=True)
    if done.returncode:
        yield done.stdout[:3000] + done.stderr[:1000]
    for data, fields, answer in given:
        message = factory()
        try:
            message.MergeFromString(data)
            taken = True
        except (DecodeError, UnicodeDecodeError):
            taken = False
        if fields is None:
            counts[answer.split(": ")[1]] += 1
            if taken and not is_taken(data, answer):
                yield f"{syntax} {data.hex()}: {answer}, and Python takes it"
            continue
        counts["fields"] += 1
        if not taken:
            yield f"{syntax} {data.hex()}: {answer}, and Python refuses it"
        elif name := differs(fields, message):
            yield f"{syntax} {data.hex()}: {name} differs"


def main():
    options = argparse.ArgumentParser()
    options.add_argument("--program", default=PROGRAM)
    options.add_argument("--seed", type=int, default=1)
    options.add_argument("--count", type=int, default=1000)
    asked = options.parse_args()
    counts, wrong = Counter(), 0
    with tempfile.TemporaryDirectory() as room:
        for seed in range(asked.seed, asked.seed + asked.count // OF_ONE):
            for said in tries(random.Random(seed), asked.program, room, counts):
                wrong += 1
                print(f"seed {seed}: {said}")
    for what, count in sorted(counts.items()):
        print(f"{count:7} {what}")
    return 1 if wrong else 0


if __name__ == "__main__":
    sys.exit(main())
