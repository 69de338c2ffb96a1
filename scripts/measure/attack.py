#!/usr/bin/env python3
"""Writes a text that is meant to cost much: attack.py NAME SIZE > attack.proto

docs/PERFORMANCE.md has what each of them costs. With no argument it lists the names."""

import sys

PROTO2 = 'syntax = "proto2";\n'
PROTO3 = 'syntax = "proto3";\n'
OPTIONS = PROTO2 + 'import "google/protobuf/descriptor.proto";\n'


# ---- what the texts are made of


def block(head, n, item, end="}\n"):
    """A block in braces with an item for each number below n."""
    yield head + " {\n"
    for i in range(n):
        yield f"  {item(i)}\n"
    yield end


def field_number(i):
    """The number of field i, from 0 on, where those from 19000 to 19999 may not be used."""
    return i + 1 if i < 18999 else i + 1001


def custom_option(kind, field):
    """The extension that makes a field an option of files or of messages."""
    return f"extend google.protobuf.{kind}Options {{ {field} = 50000; }}\n"


def wide_option(n):
    """A file's option, wide, of a message of n fields."""
    yield OPTIONS
    yield from block("message D", n, lambda i: f"optional int32 a{i} = {20000 + i};")
    yield custom_option("File", "optional D wide")


# ---- the texts


def fields(n):
    """One message with n fields of all kinds that have 35 bytes each on the mean."""
    kinds = "string bytes bool double sint64 int32".split()
    yield PROTO3
    yield from block(
        "message Wide",
        n,
        lambda i: f"{kinds[i % 6]} name_of_the_field_{i + 1} = {field_number(i)};",
    )


def prefixes(n):
    """n messages whose names begin with the same 60 characters, each with one field."""
    long = "Prefix" * 10
    yield PROTO3
    for i in range(n):
        yield f"message {long}{i} {{ {long}{max(0, i - 1)} before = 1; }}\n"


def values(n):
    """An enum of n values."""
    yield PROTO3
    yield from block("enum Wide", n, lambda i: f"VALUE_{i} = {i};")


def defaults(n):
    """n fields whose default is the last of an enum's n values."""
    yield PROTO2
    yield from block("enum Wide", n, lambda i: f"V{i} = {i};")
    yield from block(
        "message M", n, lambda i: f"optional Wide f{i} = {20000 + i} [default = V{n - 1}];"
    )


def json_names(n):
    """n fields, each two of which have one name in JSON's spelling in all but its last part."""

    def field(i):
        words = format(i, "017b").replace("0", "a").replace("1", "_a")
        return f"optional int32 f{words}_{i} = {20000 + i};"

    yield PROTO2
    yield from block("message M", n, field)


def parts(n):
    """A field's type with a name of 100 parts, n times, in a package of 99 parts."""
    package = ".".join(["a"] * 99)
    yield PROTO3 + f"package {package};\nmessage M {{}}\n"
    yield from block("message User", n, lambda i: f"{package}.M f{i} = {field_number(i)};")


def constants(n):
    """n options, each with a constant that nests 100 deep."""
    yield OPTIONS + "message D { optional D d = 1; optional int32 a = 2; }\n"
    yield custom_option("File", "repeated D deep")
    constant = "{ d " * 99 + "{ a: 1 }" + " }" * 99
    for _ in range(n):
        yield f"option (deep) = {constant};\n"


def lists(n):
    """100 options whose constant nests 49 deep in lists of one, with n / 100 numbers inside."""
    yield OPTIONS + "message D { repeated D d = 1; repeated int32 a = 2; }\n"
    yield custom_option("Message", "optional D deep")
    inside = ", ".join(str(i) for i in range(n // 100))
    constant = "{ d: [" * 48 + f"{{ a: [{inside}] }}" + "] }" * 48
    for i in range(100):
        yield f"message M{i} {{ option (deep) = {constant}; }}\n"


def items(n):
    """An option that is a list of n numbers of one digit: all of the text is tokens."""
    yield OPTIONS + custom_option("File", "repeated int32 items")
    yield "option (items) = [" + ",".join("1" * n) + "];"


def pieces(n):
    """A string of n bytes in pieces of one byte."""
    yield PROTO2 + "message M { optional string s = 1 [default ="
    for i in range(n):
        yield ' "a"' if i % 20 else '\n"a"'
    yield "]; }\n"


def extensions(n):
    """n extensions of an options message, and n messages, each of which sets another one."""
    yield OPTIONS
    yield from block(
        "extend google.protobuf.MessageOptions", n, lambda i: f"optional int32 x{i} = {50000 + i};"
    )
    for i in range(n):
        yield f"message M{i} {{ option (x{i}) = 1; }}\n"


def set_fields(n):
    """An option of a message of n fields, which sets all of them."""
    yield from wide_option(n)
    yield from block("option (wide) =", n, lambda i: f"a{i}: 1", "};\n")


def set_paths(n):
    """The same by a statement for each field."""
    yield from wide_option(n)
    for i in range(n):
        yield f"option (wide).a{i} = 1;\n"


def set_values(n):
    """A list of n numbers of an enum's n values, each by its name."""
    yield OPTIONS
    yield from block("enum E", n, lambda i: f"V{i} = {i};")
    yield custom_option("File", "repeated E all")
    for i in range(n):
        yield f"option (all) = V{n - 1 - i};\n"


def extends(n):
    """n extensions of a message with n ranges of extensions."""
    yield PROTO2
    yield from block("message M", n, lambda i: f"extensions {20000 + 2 * i};")
    for i in range(n):
        yield f"extend M {{ optional int32 x{i} = {20000 + 2 * i}; }}\n"


def reserved(n):
    """A message with n fields, n reserved numbers and n reserved names."""
    yield PROTO2
    yield from block(
        "message M",
        n,
        lambda i: f'reserved {20000 + 2 * i}; reserved "r{i}";'
        f"  optional int32 f{i} = {20001 + 2 * i};",
    )


def oneofs(n):
    """A message with n oneofs of one field, and n fields with oneofs of their own."""
    yield PROTO3
    yield from block(
        "message M",
        n,
        lambda i: f"oneof o{i} {{ int32 f{i} = {20000 + 2 * i}; }}\n"
        f"  optional int32 g{i} = {20001 + 2 * i};",
    )


def maps(n):
    """A message with n maps."""
    yield PROTO3
    yield from block("message M", n, lambda i: f"map<string, int32> m{i} = {20000 + i};")


def deep(n):
    """n times messages that nest 100 deep, each of which uses the outermost one."""
    yield PROTO2
    for i in range(n):
        for level in range(99):
            yield f"message D{i}L{level} {{ optional D{i}L0 up = 1; "
        yield "}" * 99 + "\n"


def options(n):
    """A message with n statements of one custom option."""
    yield OPTIONS + custom_option("Message", "repeated int32 xs")
    yield from block("message M", n, lambda i: f"option (xs) = {i};")


FIVE_FIELDS = """  optional int32 first_field = 1;
  optional string second_field = 2;
  repeated uint64 third_field = 3;
  optional bool fourth_field = 4;
  optional double fifth_field = 5;
"""


def declared_options():
    """Five options of messages, and the types that they have."""
    yield OPTIONS + "enum Level { LOW = 0; HIGH = 1; }\n"
    yield "message Tags { optional string name = 1; repeated int32 ids = 2; }\n"
    yield "extend google.protobuf.MessageOptions {\n"
    yield "  optional int32 weight = 50000; optional string owner = 50001;\n"
    yield "  optional bool shown = 50002; optional Level level = 50003;\n"
    yield "  optional Tags tags = 50004;\n}\n"


def messages_with(n, statements):
    """n messages of five fields, each with these statements."""
    for i in range(n):
        yield f"message Message{i} {{\n"
        yield from (f"  option {it};\n" for it in statements(i))
        yield FIVE_FIELDS + "}\n"


def custom_statements(i):
    """Five custom options."""
    return [
        f"(weight) = {i}",
        f'(owner) = "team number {i}"',
        "(shown) = true",
        "(level) = HIGH",
        '(tags) = { name: "some name" ids: [1, 2, 3] }',
    ]


def builtin_statements(_):
    """Five statements of built-in options."""
    return [
        "deprecated = true",
        "message_set_wire_format = false",
        "no_standard_descriptor_accessor = true",
        "map_entry = false",
        "deprecated = false",
    ]


def customs(n):
    """n messages of five fields, each with five custom options."""
    yield from declared_options()
    yield from messages_with(n, custom_statements)


def builtins(n):
    """The same messages with five statements of built-in options each."""
    yield from declared_options()
    yield from messages_with(n, builtin_statements)


def imports(n):
    """n imports of one file that the library brings."""
    yield PROTO3
    yield 'import "google/protobuf/any.proto";\n' * n


def methods(n):
    """A service with n methods."""
    yield PROTO3 + "message M {}\n"
    yield from block("service S", n, lambda i: f"rpc Call{i}(M) returns (stream M);")


def braces(n):
    """n statements of nothing."""
    yield "message M {" + ";" * n + "}"


def comment(n):
    """A comment of n stars that ends in the last character."""
    yield "/" + "*" * n + "/"


# ---- names that collide

# The hash has keys that are known: each step multiplies the state, mixed with eight bytes of the
# name, by the eight bytes behind them. Where the state is just these bytes the product is 0,
# whatever stands behind them.
WORD = (1 << 64) - 1
FACTOR = 0x9E3779B97F4A7C15
START = 0x243F6A8885A308D3
LETTERS = "abcdefghijklmnopqrstuvwxyzABCDEFGHIJKLMNOPQRSTUVWXYZ0123456789_"


def folded(a, b):
    product = a * b
    return product & WORD ^ product >> 64


def word(text):
    return int.from_bytes(text.encode(), "little")


def mixed(state, text):
    """The hash's state after 16 more characters."""
    return folded(word(text[:8]) ^ state, word(text[8:]) ^ FACTOR)


def colliding_front(before):
    """24 characters behind which eight others don't count. The name is `before`, of a multiple of
    16 characters, and 48 more."""
    is_letter = set(map(ord, LETTERS))
    state = START + len(before) + 48 & WORD
    for at in range(0, len(before), 16):
        state = mixed(state, before[at : at + 16])
    for i in range(1 << 30):
        front = "a" + format(i, "015d")
        after = mixed(state, front).to_bytes(8, "little")
        if is_letter.issuperset(after):
            return front + after.decode()


def colliding(n, before=""):
    """n names that have one hash: `before`, of a multiple of 16 characters, and 48 more."""
    front = before + colliding_front(before)
    return (f"{front}{i:08d}abcdefghijklmnop" for i in range(n))


def collisions(n):
    """One message with n fields whose names have one hash."""
    alike = list(colliding(n))
    yield PROTO2
    yield from block("message M", n, lambda i: f"optional int32 {alike[i]} = {20000 + i};")


def agreeing(n):
    """One message with n fields whose names have one hash and 10,240 characters, all alike but for
    eight near their end: 10.5 MB at n = 1024."""
    alike = list(colliding(n, "a" * 10192))
    yield PROTO2
    yield from block("message M", n, lambda i: f"optional int32 {alike[i]} = {field_number(i)};")


def full_names(n):
    """n messages whose full names have one hash, each with a field of the type before it."""
    package = "a" * 14
    front = f".{package}."
    alike = [name.removeprefix(front) for name in colliding(n, front)]
    yield PROTO2
    yield f"package {package};\n"
    for i in range(n):
        yield f"message {alike[i]} {{ optional {alike[i - 1]} f = 1; }}\n"


def paths(n):
    """n proto paths that have one hash, a line each: for the benchmark's --same."""
    return (name + "\n" for name in colliding(n))


def numbers(n):
    """n proto paths, a line each: for the benchmark's --same."""
    return (f"{i}\n" for i in range(n))


def lost_types(n):
    """A message with n fields, each of another type that nothing declares."""
    yield PROTO2
    yield from block("message M", n, lambda i: f"optional Lost{i} a{i} = {field_number(i)};")


def twice_named(n):
    """A message with n fields of one name."""
    yield PROTO2
    yield from block("message M", n, lambda i: f"optional int32 a = {field_number(i)};")


def wrong_options(n):
    """A message with n fields, each with an option that takes another value."""
    yield PROTO2
    yield from block(
        "message M", n, lambda i: f"optional int32 a{i} = {field_number(i)} [deprecated = 5];"
    )


def twofold(n):
    """n messages, each declared twice."""
    for i in range(n):
        yield f"message A{i} {{}} message A{i} {{}}\n"


def lost_extensions(n):
    """A message with n fields, each with an option that nothing declares."""
    yield PROTO2
    yield from block(
        "message M", n, lambda i: f"optional int32 a{i} = {field_number(i)} [(lost) = 5];"
    )


def names(n):
    """A file that declares n names: for the benchmark's --same."""
    return (f"message M{i} {{}}\n" for i in range(n))


def wide(n):
    """A message with n fields, the first of its own type: for the benchmark's --read."""
    yield PROTO2
    yield from block(
        "message Wide",
        max(n, 1),
        lambda i: f"optional int32 f{i + 1} = {i + 1};" if i else "repeated Wide more = 1;",
    )


HELPERS = (
    block,
    field_number,
    custom_option,
    wide_option,
    folded,
    word,
    mixed,
    colliding_front,
    colliding,
    declared_options,
    messages_with,
    custom_statements,
    builtin_statements,
)
ATTACKS = {
    name: it for name, it in list(globals().items()) if callable(it) and it not in HELPERS
}

if __name__ == "__main__":
    if len(sys.argv) != 3:
        print("\n".join(ATTACKS))
    else:
        sys.stdout.writelines(ATTACKS[sys.argv[1]](int(sys.argv[2])))
