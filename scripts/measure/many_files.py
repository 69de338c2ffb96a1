#!/usr/bin/env python3
"""What many files take: one process over all, four over a quarter each, and a farm.

Run it at the top of the repository: scripts/measure/many_files.py [--program FILE] [--files N]. It makes
files in libraries of fifty, in twenty layers; each file imports some of its own library and of two
of the layer below. It measures the seconds and the memory of one process, with protoc's beside it
where that is there, of four at once, and of one for each library, which is what a build engine
spreads: on a farm all are done once the longest chain of libraries is.
"""

import argparse
import os
import random
import shutil
import subprocess
import tempfile
import time
from pathlib import Path

PROGRAM = Path("crates/protobuf_parse_cli/out/protobuf_parse_cli")
PER_LIBRARY = 50
LAYERS = 20
FIRST = 5
MESSAGES = 4
FIELDS = 8
KINDS = "int32 int64 uint32 uint64 bool string bytes fixed32".split()


def path_of(library, file):
    return f"lib{library}/file{file}.proto"


def imports_of(file, library, below, dice):
    """What a file imports: two of the first five of its library, and one of these of each below."""
    own = dice.sample(range(FIRST), 2) if file >= FIRST else []
    other = [path_of(lib, dice.randrange(FIRST)) for lib in below]
    return sorted({*[path_of(library, it) for it in own], *other})


def text_of(library, file, imports, dice):
    """The text: messages with fields of scalars, and one field for each import."""
    lines = ['syntax = "proto3";', f"package lib{library}.file{file};"]
    lines += [f'import "{it}";' for it in imports]
    for m in range(MESSAGES):
        lines.append(f"message M{m} {{")
        for n in range(1, FIELDS + 1):
            lines.append(f"  {dice.choice(KINDS)} field_{n} = {n};")
        for n, it in enumerate(imports, FIELDS + 1):
            package = it.removesuffix(".proto").replace("/", ".")
            lines.append(f"  .{package}.M0 other_{n} = {n};")
        lines.append("}")
    return "\n".join(lines) + "\n"


def make_tree(folder, files):
    """Writes the files, and answers the libraries: which others each depends on."""
    dice = random.Random(7)
    libraries = max(files // PER_LIBRARY, LAYERS)
    width = libraries // LAYERS
    depends = {}
    for library in range(libraries):
        layer = library // width
        lower = range((layer - 1) * width, layer * width) if layer else range(0)
        depends[library] = sorted(dice.sample(lower, min(2, len(lower))))
        (folder / f"lib{library}").mkdir()
        for file in range(PER_LIBRARY):
            imports = imports_of(file, library, depends[library], dice)
            path = folder / path_of(library, file)
            path.write_text(text_of(library, file, imports, dice))
    return depends


def files_of(library):
    return [path_of(library, file) for file in range(PER_LIBRARY)]


def measured(words, folder):
    """Seconds of the clock, and megabytes at most, of a process that ends well."""
    begin = time.perf_counter()
    pid = subprocess.Popen(words, cwd=folder).pid
    _, status, usage = os.wait4(pid, 0)
    assert status == 0, (words[:4], status)
    return time.perf_counter() - begin, usage.ru_maxrss / 1024


def arguments(folder, name, paths):
    """A file with the arguments, since a command line is bounded."""
    (folder / name).write_text("\n".join(paths) + "\n")
    return f"@{name}"


def four(program, folder, paths):
    """Seconds of the clock until four processes over a quarter each have ended."""
    begin = time.perf_counter()
    running = []
    for n in range(4):
        words = arguments(folder, f"quarter{n}", paths[n::4])
        running.append(subprocess.Popen([program, "-I.", f"-oquarter{n}.pb", words], cwd=folder))
    assert all(it.wait() == 0 for it in running)
    return time.perf_counter() - begin


def units(program, folder, depends):
    """Seconds of each library, which reads its own files and those that it reaches."""
    found = {}
    for library in depends:
        words = [program, "-I.", f"-olib{library}.pb", *files_of(library)]
        found[library] = measured(words, folder)[0]
    return found


def longest_chain(depends, seconds):
    """Seconds of the chain of libraries that takes longest, each behind those that it depends on."""
    until = {}
    for library in sorted(depends):
        before = max((until[it] for it in depends[library]), default=0)
        until[library] = before + seconds[library]
    return max(until.values())


def main():
    options = argparse.ArgumentParser()
    options.add_argument("--program", default=str(PROGRAM))
    options.add_argument("--files", type=int, default=50000)
    options = options.parse_args()
    program = str(Path(options.program).resolve())
    with tempfile.TemporaryDirectory() as room:
        folder = Path(room)
        depends = make_tree(folder, options.files)
        paths = [path for library in depends for path in files_of(library)]
        words = arguments(folder, "all", paths)
        print(f"{len(paths)} files, {len(depends)} libraries in {LAYERS} layers")
        took, memory = measured([program, "-I.", "-oall.pb", words], folder)
        print(f"one process: {took:.1f} s, {memory:.0f} MB")
        if shutil.which("protoc"):
            took, memory = measured(["protoc", "-I.", "-oprotoc.pb", words], folder)
            same = (folder / "all.pb").read_bytes() == (folder / "protoc.pb").read_bytes()
            print(f"protoc: {took:.1f} s, {memory:.0f} MB, {'the same' if same else 'OTHER'} bytes")
        print(f"four processes: {four(program, folder, paths):.1f} s")
        seconds = units(program, folder, depends)
        print(f"a process for each library: {sum(seconds.values()):.1f} s one after another, ")
        print(f"  the slowest {max(seconds.values()):.2f} s")
        print(f"a farm: {longest_chain(depends, seconds):.1f} s, the longest chain of libraries")


if __name__ == "__main__":
    main()
