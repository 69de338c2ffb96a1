#!/usr/bin/env python3
"""Measures the built programs and prints the tables of docs/PERFORMANCE.md.

    scripts/measure/performance.py [--best N] [--no-instructions] [--cli COMMAND] [TABLE..]

Run it at the top of the repository, once `rt run` has built the programs in
crates/protobuf_parse_program and crates/protobuf_parse_bench, with nothing else on the machine.
TABLE is one of sizes, attacks, files, options, faults, checks, lexing, beside, source_info, sets;
without one all are measured; faults, checks, source_info and sets need the command, which `rt run`
builds in crates/protobuf_parse_cli, and the last two protoc. A time is user and system time together, the best of N runs; memory is the most that the process held,
in MB of 1,048,576 bytes; instructions are those that valgrind's callgrind counts.
"""

import argparse
import os
import re
import resource
import subprocess
import sys
import tempfile
from pathlib import Path

TOP = Path(__file__).resolve().parents[2]
PROGRAM = TOP / "crates/protobuf_parse_program/out/protobuf_parse_program"
CLI = TOP / "crates/protobuf_parse_cli/out/protobuf_parse_cli"
BENCH = TOP / "crates/protobuf_parse_bench/out/protobuf_parse_bench"
ATTACK = TOP / "scripts/measure/attack.py"
SCALARS = (
    "int32 int64 uint32 uint64 sint32 sint64 fixed32 sfixed32 fixed64 sfixed64 bool string bytes "
    "float double"
).split()

ATTACKS = [
    ("fields", 300000), ("prefixes", 100000), ("values", 300000), ("defaults", 80000),
    ("json_names", 100000), ("collisions", 20000), ("agreeing", 1024), ("full_names", 20000),
    ("constants", 1000), ("lists", 200000), ("items", 5000000), ("pieces", 2500000),
    ("extends", 80000),
    ("reserved", 50000), ("oneofs", 50000), ("maps", 50000), ("options", 200000),
    ("methods", 100000), ("braces", 10000000), ("comment", 10000000), ("extensions", 20000),
    ("deep", 200), ("parts", 100000), ("set_fields", 40000), ("set_paths", 40000),
    ("set_values", 40000),
]  # fmt: skip


def scalars(n):
    """n messages of 25 scalar fields each."""
    yield 'syntax = "proto3";\n'
    for m in range(n):
        yield f"message GeneratedMessage{m} {{\n"
        for f in range(1, 26):
            label = "" if f % 3 else "repeated "
            yield f"  {label}{SCALARS[f % 15]} generated_field_{f} = {f};\n"
        yield "}\n"


def of_all_kinds(n):
    """n messages with enums, messages, maps, oneofs, named types, ranges and options."""
    for i in range(n):
        yield f"""message Order{i} {{
  enum State {{ NONE = 0; OPEN = 1 [deprecated = true]; CLOSED = 0x2; }}
  message Line {{ optional string name = 1 [default = "x", json_name = "lineName"]; repeated int64 counts = 2 [packed = true]; optional State state = 3; }}
  map<string, Line> lines = 1;
  oneof kind {{ Line first = 2; State state = 3; bytes raw_data = 4; }}
  optional Order{max(0, i - 1)} previous = 5;
  repeated Line other_lines_of_it = 6 [deprecated = false];
  extensions 100 to 199, 1000 to max;
  reserved 50 to 60, 70; reserved "old_name", "older_name";
  option deprecated = true;
  optional uint32 created_at_seconds = 7; optional bool is_confirmed = 8 [default = true]; optional double price = 9 [default = 10];
}}
"""


class Measure:
    """Runs of programs in one folder."""

    def __init__(self, folder, best, counts):
        self.folder, self.best, self.counts = Path(folder), best, counts

    def write(self, name, pieces):
        with open(self.folder / name, "w") as file:
            file.writelines(pieces)
        return (self.folder / name).stat().st_size / 1e6

    def attack(self, name, size):
        text = subprocess.run([ATTACK, name, str(size)], capture_output=True, text=True, check=True)
        return self.write(f"{name}.proto", [text.stdout])

    def once(self, args, status_wanted):
        """Processor time in seconds, memory in MB and the length of what is printed, in MB."""
        # A child's own memory, as `time` tells it: that of `wait4` has this process's in it.
        command = ["/usr/bin/time", "-f", "%M", *args]
        with open(self.folder / "printed", "wb") as out, open(self.folder / "told", "wb") as err:
            child = subprocess.Popen(command, cwd=self.folder, stdout=out, stderr=err)
            _, status, used = os.wait4(child.pid, 0)
        if os.waitstatus_to_exitcode(status) != status_wanted:
            sys.exit(f"{args}: status {status}")
        memory = int((self.folder / "told").read_text().split()[-1]) / 1024
        printed = (self.folder / "printed").stat().st_size / 1e6
        return used.ru_utime + used.ru_stime, memory, printed

    def run(self, *args, status=0):
        """The same, the least time and memory of some runs that end with this status."""
        runs = [self.once([str(arg) for arg in args], status) for _ in range(self.best)]
        return min(run[0] for run in runs), min(run[1] for run in runs), runs[0][2]

    def instructions(self, *args):
        """Instructions in millions, as text."""
        if not self.counts:
            return "-"
        done = subprocess.run(
            ["valgrind", "--tool=callgrind", "--callgrind-out-file=/dev/null", *map(str, args)],
            cwd=self.folder, capture_output=True, text=True,
        )  # fmt: skip
        found = re.search(r"Collected : (\d+)", done.stderr)
        return f"{int(found[1]) / 1e6:.0f}" if found else "?"


def sizes(m):
    print("| file | text | listing | time | memory | million instructions |\n|---|---|---|---|---|---|")
    rows = [(scalars, "messages of 25 scalar fields", [1000, 4000, 16000])]
    rows += [(of_all_kinds, "messages of all kinds", [3000, 12000])]
    for text, what, counts in rows:
        for n in counts:
            size = m.write("f.proto", text(n))
            time, memory, printed = m.run(PROGRAM, "f.proto", ".")
            count = m.instructions(PROGRAM, "f.proto", ".") if n in (4000, 3000) else ""
            print(
                f"| {n:,} {what} | {size:.2f} MB | {printed:.1f} MB | {time:.3f} s "
                f"| {memory:.0f} MB | {count} |"
            )


def attacks(m):
    print("| attack and size | text | half | whole | memory |\n|---|---|---|---|---|")
    for name, n in ATTACKS:
        m.attack(name, n // 2)
        half, _, _ = m.run(PROGRAM, f"{name}.proto", ".")
        size = m.attack(name, n)
        whole, memory, _ = m.run(PROGRAM, f"{name}.proto", ".")
        print(f"| `{name}` {n} | {size:.1f} MB | {half:.2f} s | {whole:.2f} s | {memory:.0f} MB |")


def files(m):
    print("| files | time | memory |\n|---|---|---|")
    for n in (1000, 4000, 16000):
        time, memory, _ = m.run(BENCH, "--files", n)
        print(f"| {n:,} | {time:.3f} s | {memory:.0f} MB |")


def options(m):
    print("| input | time | memory | million instructions |\n|---|---|---|---|")
    for name in ("builtins", "customs"):
        for n in (10000, 20000):
            m.attack(name, n)
            time, memory, _ = m.run(PROGRAM, f"{name}.proto", ".")
            count = m.instructions(PROGRAM, f"{name}.proto", ".") if n == 10000 else ""
            print(f"| `{name}` {n} | {time:.2f} s | {memory:.0f} MB | {count} |")


def faults(m):
    print("| what | faults | text | half | whole | memory |\n|---|---|---|---|---|---|")
    for name in ("lost_types", "twice_named", "twofold", "wrong_options", "lost_extensions"):
        m.attack(name, 50000)
        half, _, _ = m.run(CLI, f"{name}.proto", status=1)
        size = m.attack(name, 100000)
        whole, memory, _ = m.run(CLI, f"{name}.proto", status=1)
        print(
            f"| `{name}` | 100,000 | {size:.1f} MB | {half:.2f} s | {whole:.2f} s | {memory:.0f} MB |"
        )


def twice_named(m, is_faulty):
    """100 files with an E5 each, over one import of 400 messages."""
    body = "".join(f"message M{i} {{ int32 a = 1; string b = 2; }}\n" for i in range(400))
    m.write("base.proto", ['syntax = "proto3";\n', body])
    names = [f"twice{i}.proto" for i in range(100)]
    for i, name in enumerate(names):
        other = f"A{i}" if is_faulty else f"B{i}"
        text = f"message A{i} {{ M{i} m = 1; }}\nmessage {other} {{}}\n"
        m.write(name, ['syntax = "proto3";\nimport "base.proto";\n', text])
    return names


def lost_type(m, is_faulty):
    """One E3 in a file that imports 4,000 messages."""
    m.write("base.proto", scalars(4000))
    type_ = "Nowhere" if is_faulty else "GeneratedMessage7"
    text = f"message M {{ {type_} m = 1; GeneratedMessage5 n = 2; }}\n"
    m.write("lost.proto", ['syntax = "proto3";\nimport "base.proto";\n', text])
    return ["lost.proto"]


def many_files(m, is_faulty):
    """10,000 files, each of which imports the one before it of a group of ten; with faults in 5,000
    of them: names that are declared twice, types that are missing, imports that are missing, a text
    without a tree."""
    for i in range(10000):
        imports = f'import "f{i - 1}.proto";\n' if i % 10 else ""
        field = f"M{i - 1} before = 1;" if i % 10 else ""
        wrong = ""
        if is_faulty and i % 2:
            wrong = (
                f"message M{i} {{}}\n", "message N { Nowhere n = 1; }\n",
                'import "nowhere.proto";\n', "message N { int32 a = 1; int32 a = 2; }\n",
                "message {\n",
            )[i // 2 % 5]  # fmt: skip
        text = f"message M{i} {{ {field} int32 a = 2; string b = 3; }}\n"
        m.write(f"f{i}.proto", ['syntax = "proto3";\n', imports, text, wrong])
    imports = [f'import "f{i}.proto";\n' for i in range(9, 10000, 10)]
    m.write("all.proto", ['syntax = "proto3";\n', *imports])
    return ["all.proto"]


def checks(m):
    print("| what | clean | with faults |\n|---|---|---|")
    for made in (twice_named, lost_type, many_files):
        counts = []
        for is_faulty in (False, True):
            names = made(m, is_faulty)
            time, _, _ = m.run(CLI, "--rules=off", *names, status=1 if is_faulty else 0)
            count = m.instructions(CLI, "--rules=off", *names)
            counts.append(f"{count} million, {time:.3f} s")
        print(f"| `{made.__name__}` | {' | '.join(counts)} |")


def lexing(m):
    for text, n in ((scalars, 4000), (of_all_kinds, 3000), (scalars, 16000)):
        size = m.write("f.proto", text(n))
        print(f"{text.__name__} {n}, {size:.2f} MB")
        subprocess.run([str(BENCH), "f.proto"], cwd=m.folder, check=True)


def beside(m):
    print("| file | program | time | memory | million instructions |\n|---|---|---|---|---|")
    for text, n in ((scalars, 4000), (of_all_kinds, 3000)):
        m.write("f.proto", text(n))
        for name, args in (
            ("this one", [PROGRAM, "f.proto", "."]),
            ("`protoc`", ["protoc", "-I.", "-o", "/dev/null", "f.proto"]),
        ):
            time, memory, _ = m.run(*args)
            count = m.instructions(*args)
            print(f"| {text.__name__} {n} | {name} | {time:.3f} s | {memory:.0f} MB | {count} |")


def commented(text):
    """The text with a comment above each line, and one behind it."""
    for piece in text:
        for line in piece.splitlines():
            yield f"// What the next line says.\n{line} // and why\n"


def deep_messages(n):
    """n messages, thirty inside one another."""
    yield 'syntax = "proto3";\n'
    for i in range(n // 30):
        yield "".join(f"message M{i}_{level} {{\n" for level in range(30)) + "}" * 30 + "\n"


def one_comment(n):
    yield 'syntax = "proto3";\n/* ' + "x " * (n // 2) + "*/\nmessage M {}\n"


def many_comments(n):
    yield 'syntax = "proto3";\n' + "// x\n\n" * n + "message M {}\n"


def beside_protoc(m, what, ours, theirs):
    for name, args in (("this one", [CLI, "--rules=off", *ours]), ("`protoc`", ["protoc", *theirs])):
        time, memory, _ = m.run(*args)
        count = m.instructions(*args)
        print(f"| {what} | {name} | {time:.3f} s | {memory:.0f} MB | {count} |")


def source_info(m):
    print("| file and set | program | time | memory | million instructions |\n|---|---|---|---|---|")
    made = [("scalars 4000", scalars(4000)), ("of_all_kinds 3000", of_all_kinds(3000))]
    made.append(("of_all_kinds 3000, with comments", commented(of_all_kinds(3000))))
    for what, text in made:
        m.write("f.proto", text)
        words = ["-I.", "-o", "/dev/null", "f.proto"]
        beside_protoc(m, what, words, words)
        words.insert(0, "--include_source_info")
        beside_protoc(m, f"{what}, source info", words, words)
    print("\n| attack | half | whole | memory |\n|---|---|---|---|")
    for text, n in ((many_comments, 1000000), (one_comment, 100000000), (deep_messages, 300000)):
        runs = []
        for size in (n // 2, n):
            m.write("f.proto", text(size))
            words = [CLI, "--rules=off", "--include_source_info", "-o", "/dev/null", "f.proto"]
            runs.append(m.run(*words))
        (half, _, _), (whole, memory, _) = runs
        print(f"| `{text.__name__}` {n:,} | {half:.2f} s | {whole:.2f} s | {memory:.0f} MB |")


def sets(m):
    print("| set | program | time | memory | million instructions |\n|---|---|---|---|---|")
    for text, n in ((scalars, 4000), (scalars, 17280), (of_all_kinds, 3000)):
        m.write("f.proto", text(n))
        subprocess.run(["protoc", "-I.", "-o", "f.pb", "f.proto"], cwd=m.folder, check=True)
        size = (m.folder / "f.pb").stat().st_size / 1e6
        words = ["--descriptor_set_in=f.pb", "-o", "/dev/null", "f.proto"]
        beside_protoc(m, f"{text.__name__} {n}, {size:.1f} MB", words, words)


TABLES = (sizes, attacks, files, options, faults, checks, lexing, beside, source_info, sets)
TABLES = {table.__name__: table for table in TABLES}


def main():
    parser = argparse.ArgumentParser()
    parser.add_argument("tables", nargs="*", choices=[*TABLES, []])
    parser.add_argument("--best", type=int, default=5)
    parser.add_argument("--no-instructions", action="store_true")
    parser.add_argument("--cli", default=str(CLI))
    given = parser.parse_args()
    globals()["CLI"] = Path(given.cli).resolve()
    resource.setrlimit(resource.RLIMIT_CORE, (0, 0))
    with tempfile.TemporaryDirectory() as folder:
        measure = Measure(folder, given.best, not given.no_instructions)
        for name in given.tables or TABLES:
            print(f"\n## {name}\n")
            TABLES[name](measure)


if __name__ == "__main__":
    main()
