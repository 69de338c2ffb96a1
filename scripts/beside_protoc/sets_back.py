#!/usr/bin/env python3
"""Has the command read the sets that others write: docs/testing.md.

    scripts/beside_protoc/sets_back.py [--program PROGRAM] [--damaged N] [--seed S] LIST

Each line of LIST is an include, a tab, and a file in it (real_files.py makes one). Of each file that
protoc accepts, protoc writes the set with all imports and source info, and Python's package the same
message anew; the command reads each with --descriptor_set_in, without any folder, and writes the set
of all its files. Then it writes the texts of all files with --text, of which protoc and the command
each make a set again. It prints how often the bytes are the same, and of the others why, and with
--damaged N how the command answers N damaged ones of these sets, without source info (its bytes are
handed on as they are), each with some bytes changed, left out or doubled: each must be told of or
taken, and none taken that Python's package doesn't read.
The program is crates/protobuf_parse_cli/out/protobuf_parse_cli, as `rt run` builds it there. The
status is 1 where something is not as it must be."""

import argparse
import collections
import random
import re
import subprocess
import sys
import tempfile
from concurrent.futures import ThreadPoolExecutor
from pathlib import Path

from google.protobuf import descriptor_pb2
from google.protobuf.message import DecodeError

PROGRAM = "crates/protobuf_parse_cli/out/protobuf_parse_cli"
# So many damaged sets are given to the command at once.
AT_ONCE = 50
NO_SET = re.compile(r"^(.*): error: this is no descriptor set: .* \[L14\]$", re.M)


def ran(words):
    return subprocess.run(words, capture_output=True, text=True, errors="replace")


def set_of(include, file, out):
    words = ["protoc", f"-I{include}", "--include_imports", "--include_source_info", "-o", out, file]
    return ran(words).returncode == 0


def paths_of(file_set):
    return [file.name for file in file_set.file]


def read_back(program, given, out, paths):
    """What the command says of the set, and the bytes that it writes of it."""
    words = [program, f"--descriptor_set_in={given}", "--rules=off", "--include_imports"]
    done = ran([*words, "--include_source_info", "-o", out, *paths])
    return done, Path(out).read_bytes() if done.returncode == 0 else b""


def texts_back(program, given, folder, paths):
    """Whether protoc and the command make the same sets of the texts as of the files."""
    for path in paths:
        done = ran([program, f"--descriptor_set_in={given}", "--rules=off", "--text", path])
        if done.returncode != 0:
            return [f"text: other: {why(done)}"]
        to = Path(folder, path)
        to.parent.mkdir(parents=True, exist_ok=True)
        to.write_text(done.stdout)
    wanted = descriptor_pb2.FileDescriptorSet.FromString(Path(given).read_bytes())
    for file in wanted.file:
        file.ClearField("source_code_info")
    answers = []
    for by, words in (("protoc", ["protoc"]), ("the command", [program, "--rules=off"])):
        out = f"{folder}.set"
        done = ran([*words, f"-I{folder}", "--include_imports", "-o", out, paths[-1]])
        if done.returncode != 0:
            answers.append(f"text by {by}: other: {why(done)}")
            continue
        found = descriptor_pb2.FileDescriptorSet.FromString(Path(out).read_bytes())
        same = {file.name: file for file in found.file} == {file.name: file for file in wanted.file}
        answers.append(f"text by {by}: " + ("the same descriptors" if same else "other: descriptors"))
    return answers


def why(done):
    """The code of the first thing that the command tells, or its status."""
    found = re.search(r"error: .*\[([A-Z][0-9]+)\]", done.stderr)
    return found[1] if found else f"status {done.returncode}"


def one(program, number, line, room):
    """What became of the sets of one file, and the bytes of its set without source info."""
    include, file = line.split("\t")
    given, out = f"{room}/{number}.pb", f"{room}/{number}.out"
    if not set_of(include, file, given):
        return ["refused by protoc"], b""
    bytes_given = Path(given).read_bytes()
    file_set = descriptor_pb2.FileDescriptorSet.FromString(bytes_given)
    done, found = read_back(program, given, out, paths_of(file_set))
    answers = ["the same bytes" if found == bytes_given else f"other: {why(done)}"]
    again = file_set.SerializeToString()
    Path(given).write_bytes(again)
    done, found = read_back(program, given, out, paths_of(file_set))
    answers.append("Python's: " + ("the same bytes" if found == again else f"other: {why(done)}"))
    answers += texts_back(program, given, f"{room}/{number}", paths_of(file_set))
    Path(given).unlink()
    for file in file_set.file:
        file.ClearField("source_code_info")
    return answers, file_set.SerializeToString()


def damaged(choose, whole):
    """The bytes with one to four changes."""
    found = bytearray(whole)
    for _ in range(choose.randint(1, 4)):
        at = choose.randrange(len(found))
        kind = choose.randrange(4)
        if kind == 0:
            found[at] = choose.randrange(256)
        elif kind == 1:
            del found[at : at + choose.randint(1, 9)]
        elif kind == 2:
            found[at:at] = found[at : at + choose.randint(1, 9)]
        else:
            found[at] ^= 1 << choose.randrange(8)
        if not found:
            found = bytearray(b"\x0a")
    return bytes(found)


def is_read(given):
    try:
        descriptor_pb2.FileDescriptorSet.FromString(given)
    except DecodeError:
        return False
    return True


def try_damaged(program, seed, sets, room):
    """How the command takes some damaged sets: counts, and what is wrong."""
    choose, counts, wrong = random.Random(seed), collections.Counter(), []
    files = {}
    for number in range(AT_ONCE):
        path = f"{room}/d{seed}_{number}.pb"
        files[path] = damaged(choose, choose.choice(sets))
        Path(path).write_bytes(files[path])
    done = ran([program, f"--descriptor_set_in={':'.join(files)}", "--rules=off", "no.proto"])
    if done.returncode != 1:
        wrong.append(f"seed {seed}: status {done.returncode}")
    refused = set(NO_SET.findall(done.stderr))
    for path, given in files.items():
        counts["refused" if path in refused else "taken"] += 1
        if path not in refused and not is_read(given):
            wrong.append(f"seed {seed}: taken, and Python refuses it: {given.hex()}")
        Path(path).unlink()
    return counts, wrong


def main():
    options = argparse.ArgumentParser()
    options.add_argument("--program", default=PROGRAM)
    options.add_argument("--damaged", type=int, default=0)
    options.add_argument("--seed", type=int, default=1)
    options.add_argument("list")
    asked = options.parse_args()
    top = Path(asked.list).parent
    lines = [f"{top}/{line}" for line in Path(asked.list).read_text().splitlines() if line]
    counts, sets, wrong = collections.Counter(), [], []
    with tempfile.TemporaryDirectory() as room, ThreadPoolExecutor(4) as pool:
        tries = [pool.submit(one, asked.program, *it, room) for it in enumerate(lines)]
        for line, it in zip(lines, tries):
            answers, given = it.result()
            counts.update(answers)
            if given and len(given) < 20000:
                sets.append(given)
            for answer in answers:
                if "other" in answer:
                    print(f"{line}: {answer}")
        seeds = range(asked.seed, asked.seed + asked.damaged // AT_ONCE)
        for more, said in pool.map(lambda it: try_damaged(asked.program, it, sets, room), seeds):
            counts.update(more)
            wrong += said
    for what, count in sorted(counts.items()):
        print(f"{count:7} {what}")
    print("\n".join(wrong))
    return 1 if wrong else 0


if __name__ == "__main__":
    sys.exit(main())
