#!/usr/bin/env python3
"""Has Bazel and ninja build a tree of schemas with protoc and with the command: docs/build_engines.md.

    scripts/beside_protoc/bazel.py [--program PROGRAM] [--keep FOLDER]

It makes thirty proto_library targets in a new folder, with dependencies, exports and other prefixes
of imports, and has `bazel build` make their descriptor sets, once with protoc as the proto compiler
and once with PROGRAM, which is the command: the sets must have the same bytes. Then one file doesn't
parse, one names what nothing declares, and one imports what its target doesn't depend on, and both
must refuse the same targets. After a change of one file just the targets that see it may be built
again. The command lines that Bazel makes are kept in scripts/beside_protoc/bazel.lines, and run by both without it,
which is all that is done where Bazel isn't there. Last the same files are built by ninja, if it is
there, with --dependency_out. The status is 1 where something is not as it must be."""

import argparse
import os
import re
import shutil
import subprocess
import sys
import tempfile
from pathlib import Path

TOP = Path(__file__).resolve().parents[2]
PROGRAM = TOP / "crates/protobuf_parse_cli/out/protobuf_parse_cli"
# The command lines of the last build by Bazel 4.2.
LINES = TOP / "scripts/beside_protoc/bazel.lines"


class Library:
    """A proto_library: its files by their names, and those that it depends on."""

    def __init__(self, package, name, below, prefix="", strip="", exports=()):
        self.package, self.name, self.below = package, name, below
        self.prefix, self.strip, self.exports = prefix, strip, list(exports)

    def label(self):
        return f"//{self.package}:{self.name}"

    def file(self):
        """Its one file, as it lies in the tree."""
        return f"{self.package}/{self.name}.proto"

    def path(self):
        """Its proto path."""
        path = self.file()
        if self.strip:
            path = path.removeprefix(self.strip.strip("/") + "/")
        return f"{self.prefix}/{path}" if self.prefix else path

    def rule(self):
        lines = [f'    name = "{self.name}",', f'    srcs = ["{self.name}.proto"],']
        lines.append(f"    deps = {[it.label() for it in self.below]},".replace("'", '"'))
        if self.exports:
            lines.append(f"    exports = {[it.label() for it in self.exports]},".replace("'", '"'))
        if self.prefix:
            lines.append(f'    import_prefix = "{self.prefix}",')
        if self.strip:
            lines.append(f'    strip_import_prefix = "/{self.strip}",')
        lines.append('    visibility = ["//visibility:public"],')
        return "proto_library(\n" + "\n".join(lines) + "\n)\n"

    def text(self, more=""):
        """The file: a message that has one of each library that it imports."""
        lines = ['syntax = "proto3";', f"package {self.name};"]
        public = {id(it) for it in self.exports}
        lines += [
            f'import {"public " if id(it) in public else ""}"{it.path()}";' for it in self.below
        ]
        fields = [
            f"  {it.name}.{it.name.title()} a{at} = {at + 1};" for at, it in enumerate(self.below)
        ]
        fields.append("  map<string, int64> counts = 100;")
        return "\n".join([*lines, f"message {self.name.title()} {{", *fields, "}", more]) + "\n"


def libraries():
    """Ten layers of three: each uses the one below it and one of the bottom, and some have prefixes."""
    rows = []
    for layer in range(10):
        row = []
        for at, letter in enumerate("abc"):
            below = [rows[-1][at], rows[0][(at + 1) % 3]] if len(rows) > 1 else rows[-1][:2] if rows else []
            prefix = "vendor/x" if (layer, at) in ((2, 1), (5, 2)) else ""
            strip = f"p{layer}" if (layer, at) in ((3, 0), (5, 2)) else ""
            exports = below[:1] if layer % 4 == 3 else ()
            row.append(Library(f"p{layer}/q", f"{letter}{layer}", below, prefix, strip, exports))
        rows.append(row)
    return [it for row in rows for it in row]


def put(path, text):
    path.parent.mkdir(parents=True, exist_ok=True)
    path.write_text(text)


def make_tree(folder, all_libraries):
    put(folder / "WORKSPACE", "")
    put(folder / "tools/BUILD", 'exports_files(["compiler"])\n')
    packages = {}
    for it in all_libraries:
        put(folder / it.file(), it.text())
        packages.setdefault(it.package, []).append(it.rule())
    for package, rules in packages.items():
        put(folder / package / "BUILD", "\n".join(rules))


def compiler_at(folder, log, program):
    """A proto compiler for the tree, which notes the words that it is given."""
    put(
        folder / "tools/compiler",
        f"#!/bin/sh\nline=$(printf '%s\\t' \"$@\")\necho \"$line\" >> {log}\nexec {program} \"$@\"\n",
    )
    os.chmod(folder / "tools/compiler", 0o755)


def label_of(words):
    """The target that a command line makes the set of."""
    out = next(it for it in words if it.startswith("--descriptor_set_out="))
    folder, name = out.removesuffix("-descriptor-set.proto.bin").rsplit("/", 1)
    return f"//{folder.split('/bin/')[1]}:{name}"


def seen_by(all_libraries, changed):
    """The labels of the libraries that see the file of this one, and of itself."""
    found = {changed.label()}
    for it in all_libraries:
        if any(below.label() in found for below in it.below):
            found.add(it.label())
    return found


# ---- Bazel


class Bazel:
    """Builds of a tree by Bazel, with one proto compiler."""

    def __init__(self, room, name, program):
        self.folder, self.root, self.log = room / name, room / f"{name}_root", room / f"{name}_log"
        make_tree(self.folder, libraries())
        compiler_at(self.folder, self.log, program)

    def build(self):
        """The labels that could not be built, and the command lines that were run."""
        self.log.write_text("")
        words = ["bazel", "--batch", f"--output_user_root={self.root}", "build", "--keep_going"]
        words += ["--spawn_strategy=local", "--proto_compiler=//tools:compiler", "//..."]
        done = subprocess.run(words, cwd=self.folder, capture_output=True, text=True)
        failed = set(re.findall(r"proto_library (//\S+) failed", done.stderr))
        lines = [it.rstrip("\t").split("\t") for it in self.log.read_text().splitlines()]
        return failed, lines

    def sets(self):
        top = (self.folder / "bazel-bin").resolve()
        return {
            str(it.relative_to(top)): it.read_bytes()
            for it in top.rglob("*-descriptor-set.proto.bin")
        }


def same(what, wanted, found):
    if wanted != found:
        sys.exit(f"{what}:\n  protoc, or as it must be: {wanted}\n  the command: {found}")


def by_bazel(room, program):
    """Builds by both compilers: the sets, what is refused, and what is built again."""
    theirs, ours = Bazel(room, "theirs", "protoc"), Bazel(room, "ours", program)
    same("refused", theirs.build()[0], set())
    failed, lines = ours.build()
    same("refused", set(), failed)
    same("sets", theirs.sets(), ours.sets())
    print(f"{len(ours.sets())} sets by bazel: the same bytes")
    made = {it.name: it for it in libraries()}
    faults = {"b4": "message Torn {", "c6": f'import "{made["c1"].path()}";', "a7": "message M { N n = 1; }"}
    for each in (theirs, ours):
        for name, fault in faults.items():
            put(each.folder / made[name].file(), made[name].text(fault))
    refused = theirs.build()[0]
    same("refused", refused, ours.build()[0])
    print(f"{len(refused)} targets with mistakes: both refuse them")
    for name in faults:
        put(ours.folder / made[name].file(), made[name].text())
    same("refused", set(), ours.build()[0])
    put(ours.folder / made["c5"].file(), made["c5"].text("message More { int32 a = 1; }"))
    again = {label_of(line) for line in ours.build()[1]}
    same("built again", seen_by(libraries(), made["c5"]), again)
    print(f"one file changed: {len(again)} targets that see it are built again, and no others")
    return lines


def replayed(room, program, lines):
    """Runs the command lines of Bazel by both, without it."""
    folder = room / "replayed"
    make_tree(folder, libraries())
    for it in libraries():
        if it.prefix or it.strip:
            below = f"bazel-out/k8-fastbuild/bin/{it.package}/_virtual_imports/{it.name}"
            put(folder / below / it.path(), it.text())
    for words in lines:
        at = next(at for at, it in enumerate(words) if it.startswith("--descriptor_set_out="))
        found = []
        for compiler in ("protoc", program):
            out = folder / "out.pb"
            given = [*words[:at], f"--descriptor_set_out={out}", *words[at + 1 :]]
            done = subprocess.run([compiler, *given], cwd=folder, capture_output=True, text=True)
            found.append((done.returncode, out.read_bytes() if done.returncode == 0 else b""))
            out.unlink(missing_ok=True)
        same(label_of(words), *found)
    print(f"{len(lines)} command lines of bazel run again: the same bytes")


# ---- ninja


def ninja_text(program, folder):
    """A build of one set a file, whose dependencies the compiler tells."""
    lines = ["rule set", f"  command = {program} $includes --dependency_out=$out.d -o $out $in"]
    lines += ["  depfile = $out.d", "  deps = gcc", ""]
    maps = [f"-I{it.path()}={it.file()}" for it in libraries() if it.path() != it.file()]
    for it in libraries():
        lines += [f"build {it.name}.pb: set {it.file()}", f"  includes = {' '.join(maps)} -I."]
    return "\n".join(lines) + "\n"


def ninja(folder):
    done = subprocess.run(["ninja", "-v"], cwd=folder, capture_output=True, text=True)
    if done.returncode:
        sys.exit(done.stdout)
    return set(re.findall(r"-o (\S+)\.pb", done.stdout))


def by_ninja(room, program):
    found = []
    for name, compiler in (("theirs_ninja", "protoc"), ("ours_ninja", program)):
        folder = room / name
        make_tree(folder, libraries())
        put(folder / "build.ninja", ninja_text(compiler, folder).replace("$out.d", "$out.dep"))
        # ninja removes what it has read of dependencies, so they are told once more.
        same("built", {it.name for it in libraries()}, ninja(folder))
        sets = {it.name: (folder / f"{it.name}.pb").read_bytes() for it in libraries()}
        told = {it.name: dependencies(compiler, folder, it) for it in libraries()}
        found.append((sets, told))
    same("sets and dependencies by ninja", *found)
    made = {it.name: it for it in libraries()}
    put(folder / made["b3"].file(), made["b3"].text("message More {}"))
    wanted = {it.rsplit(":")[1] for it in seen_by(libraries(), made["b3"])}
    same("built again by ninja", wanted, ninja(folder))
    print(f"{len(sets)} sets by ninja: the same bytes and dependencies; {len(wanted)} built again")


def dependencies(compiler, folder, library):
    maps = [f"-I{it.path()}={it.file()}" for it in libraries() if it.path() != it.file()]
    words = [compiler, *maps, "-I.", "--dependency_out=told.d", "-o", "told.pb", library.file()]
    subprocess.run(words, cwd=folder, check=True)
    return (folder / "told.d").read_text()


def main():
    options = argparse.ArgumentParser()
    options.add_argument("--program", default=str(PROGRAM))
    options.add_argument("--keep")
    asked = options.parse_args()
    program = str(Path(asked.program).resolve())
    room = Path(asked.keep or tempfile.mkdtemp()).resolve()
    if shutil.which("bazel"):
        lines = by_bazel(room, program)
        LINES.write_text("".join("\t".join(line) + "\n" for line in sorted(lines)))
    else:
        print("bazel is not there")
    kept = [line.split("\t") for line in LINES.read_text().splitlines()]
    replayed(room, program, kept)
    if shutil.which("ninja"):
        by_ninja(room, program)
    else:
        print("ninja is not there")
    if not asked.keep:
        shutil.rmtree(room, ignore_errors=True)
    return 0


if __name__ == "__main__":
    sys.exit(main())
