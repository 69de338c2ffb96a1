#!/usr/bin/env python3
"""Measures programs on real schemas: those that packages of Debian 12 have.

    scripts/measure/real_files.py [--each] [--sample N] FOLDER [PROGRAM..]

It makes the schemas, where FOLDER/list.txt isn't there yet: it fetches the packages with `apt-get
download`, installs nothing, looks for an include of each .proto file, copies the file and all that
it imports to FOLDER/roots, and keeps those that `protoc` accepts, each text once. A line of
list.txt is an include below FOLDER and, behind a tab, a file in it. The sum that is printed says
whether somebody else's schemas are the same.

Then it tells which of them the PROGRAMs refuse, and sums up the instructions that valgrind's
callgrind counts over the others: in few runs of files that import hundreds of them, in FOLDER/one;
with --each in one run for each, or for each N-th. A program is called as `PROGRAM FILE .` in the
include; `protoc`, and one whose name ends in `_cli`, as `PROGRAM -I. -o /dev/null FILE`.
"""

import argparse
import hashlib
import re
import shutil
import subprocess
import sys
import tarfile
from collections import Counter
from concurrent.futures import ThreadPoolExecutor
from pathlib import Path, PurePosixPath
from typing import NamedTuple

PACKAGES = """
bazel-bootstrap-source etcd-discovery golang-android-soong-dev golang-etcd-server-dev
golang-gitaly-proto-dev golang-github-colinmarc-hdfs-dev golang-github-containerd-containerd-dev
golang-github-docker-docker-dev golang-github-farsightsec-go-nmsg-dev
golang-github-gogo-googleapis-dev golang-github-gogo-protobuf-dev
golang-github-golang-protobuf-1-3-dev golang-github-google-certificate-transparency-dev
golang-github-grpc-ecosystem-grpc-gateway-dev golang-github-influxdata-yarpc-dev
golang-github-influxdb-influxdb-dev golang-github-lightstep-lightstep-tracer-common-dev
golang-github-mesos-mesos-go-dev golang-github-openshift-api-dev golang-google-appengine-dev
golang-google-cloud-dev golang-google-grpc-dev golang-google-protobuf-dev golang-step-linkedca-dev
golang-v2ray-core-dev grpc-proto libgrpc-java libignition-msgs-dev libnanopb-dev libprotobuf-dev
librust-parsec-interface-dev librust-prost-build-dev librust-protobuf-codegen-pure-dev
librust-quick-protobuf-dev python3-onnx r-cran-rprotobuf
""".split()
IMPORT = re.compile(rb'^\s*import\s+(?:public\s+|weak\s+)?"([^"\n]+)"\s*;', re.M)
WRONG = re.compile(r"^([^:\n]+\.proto)(?::\d+:\d+)?: (?!warning)", re.M)  # as protoc tells it
BESIDE = re.compile(r"$|thread '|\[libprotobuf WARNING|.*: warning: ")  # not why a file is refused
TOP = "zz_all.proto"
HEAD = 'syntax = "proto3";\noption optimize_for = LITE_RUNTIME;\n'  # so that it may import any file
AT_ONCE = 3


class Schema(NamedTuple):
    """A file in an include, and the text of each path that a run of it reads there."""

    root: str
    file: str
    texts: dict

    def __str__(self):
        return f"{self.root}/{self.file}"


def at_once(function, items):
    """What the function gives for each, some of them side by side."""
    with ThreadPoolExecutor(AT_ONCE) as pool:
        return list(pool.map(function, items))


# Programs


def words(program, file):
    """The command that runs a program on a file of the folder in which it stands."""
    if Path(program).name == "protoc" or program.endswith("_cli"):
        return [program, "-I.", "-o", "/dev/null", file]
    return [program, file, "."]


def run(args, folder):
    return subprocess.run(
        args, cwd=folder, stdin=subprocess.DEVNULL, stdout=subprocess.DEVNULL,
        stderr=subprocess.PIPE, text=True, errors="replace",
    )  # fmt: skip


def refusal(program, folder, schema):
    """What the program says where it refuses the schema, or None."""
    done = run(words(program, schema.file), folder / schema.root)
    if done.returncode == 0:
        return None
    lines = [line for line in done.stderr.splitlines() if not BESIDE.match(line)]
    return lines[0] if lines else f"status {done.returncode}"


def accepted(program, folder, schemas):
    """Those that the program accepts; it tells of the others."""
    kept = []
    for schema, why in zip(schemas, at_once(lambda it: refusal(program, folder, it), schemas)):
        if why is None:
            kept.append(schema)
        else:
            print(f"refused by {program}: {schema}: {why}")
    print(f"{program} accepts {len(kept):,} of {len(schemas):,}\n")
    return kept


def accepted_by_all(programs, folder, schemas):
    kept = {str(it): it for it in schemas}
    for program in programs:
        names = {str(it) for it in accepted(program, folder, schemas)}
        kept = {name: it for name, it in kept.items() if name in names}
    return list(kept.values())


def instructions(program, folder, schema):
    valgrind = ["valgrind", "--tool=callgrind", "--callgrind-out-file=/dev/null"]
    done = run([*valgrind, *words(program, schema.file)], folder / schema.root)
    found = re.search(r"Collected : (\d+)", done.stderr)
    if done.returncode or not found:
        sys.exit(f"{program}: {schema}: {done.stderr}")
    return int(found[1])


# Schemas of packages


def protos_of(package):
    """The paths and the texts of a package's .proto files."""
    args = ["dpkg-deb", "--fsys-tarfile", package]
    with subprocess.Popen(args, stdout=subprocess.PIPE) as tar:
        with tarfile.open(fileobj=tar.stdout, mode="r|") as members:
            for it in members:
                if it.isfile() and it.name.endswith(".proto"):
                    yield str(PurePosixPath(it.name)), members.extractfile(it).read()


def fetched(folder):
    """The texts of all packages by their paths, as if all of them were installed."""
    folder.mkdir(parents=True, exist_ok=True)
    subprocess.run(["apt-get", "-q", "download", *PACKAGES], cwd=folder, check=True)
    return {path: text for it in sorted(folder.glob("*.deb")) for path, text in protos_of(it)}


def imports(text):
    return [it.decode(errors="replace") for it in IMPORT.findall(text)]


def folders_above(path):
    """From the nearest on."""
    return [str(it) for it in PurePosixPath(path).parents]


def folder_of_imports(path, texts):
    """The nearest folder above a file in which most of its imports are, or None."""
    above = folders_above(path)
    found = [sum(f"{folder}/{it}" in texts for it in imports(texts[path])) for folder in above]
    return above[found.index(max(found))] if max(found) else None


def includes(texts):
    """Each path with its include: the folder of its imports. Without any, that of three others,
    the nearest above, or else its own folder."""
    found = {path: folder_of_imports(path, texts) for path in texts}
    counts = Counter(found.values())
    for path in texts:
        above = folders_above(path)
        usual = [it for it in above if counts[it] >= 3]
        yield path, found[path] or (usual or above)[0]


def by_ends(texts):
    """For each end of a path the shortest path that ends so, the first of equally long ones."""
    found = {}
    for path in sorted(texts, key=lambda it: (len(it), it)):
        parts = path.split("/")
        for at in range(1, len(parts)):
            found.setdefault("/".join(parts[at:]), path)
    return found


def reached(root, file, texts, elsewhere):
    """The text of each path that a run of the file reads, or None where one isn't there.

    What the include doesn't have is taken from elsewhere: google/protobuf/any.proto."""
    found, wanted = {}, [file]
    while wanted:
        name = wanted.pop()
        if name in found:
            continue
        path = f"{root}/{name}" if f"{root}/{name}" in texts else elsewhere.get(name)
        if path is None:
            return None
        found[name] = texts[path]
        wanted += imports(texts[path])
    return found


def write(folder, texts):
    for name, text in texts.items():
        (folder / name).parent.mkdir(parents=True, exist_ok=True)
        (folder / name).write_bytes(text)


def copied(folder, texts):
    """The files whose imports are there, copied to folders that have all that they reach."""
    elsewhere = by_ends(texts)
    for path, include in sorted(includes(texts), key=lambda it: (it[1], it[0])):
        file = path[len(include) + 1 :]
        found = reached(include, file, texts, elsewhere)
        if found is None:
            print(f"imports what isn't there: {path}")
            continue
        schema = Schema(f"roots/{include.replace('/', '_')}", file, found)
        write(folder / schema.root, found)
        yield schema


def make(folder):
    texts = fetched(folder / "packages")
    schemas = accepted("protoc", folder, list(copied(folder, texts)))
    first = {}
    for it in schemas:
        first.setdefault(it.texts[it.file], f"{it.root}\t{it.file}\n")
    (folder / "list.txt").write_text("".join(first.values()))
    print(f"{len(texts):,} files in {len(PACKAGES)} packages, {len(schemas):,} of them kept\n")


def listed(folder):
    """The schemas of FOLDER/list.txt."""
    there = (folder / "roots").rglob("*.proto")
    texts = {str(it.relative_to(folder)): it.read_bytes() for it in there}
    for line in (folder / "list.txt").read_text().splitlines():
        root, file = line.split("\t")
        yield Schema(root, file, reached(root, file, texts, {}))


# Many schemas in one run


def beside(schemas):
    """Schemas that can lie in one folder, and the others: no path has two texts."""
    texts, fit, others = {}, [], []
    for schema in schemas:
        fits = all(texts.get(path, text) == text for path, text in schema.texts.items())
        (fit if fits else others).append(schema)
        texts.update(schema.texts if fits else {})
    return texts, fit, others


def together(folder, root, schemas):
    """A file that imports schemas, as many as protoc accepts together, and the other schemas."""
    texts, fit, others = beside(schemas)
    write(folder / root, texts)
    while True:
        text = HEAD + "".join(f'import "{it.file}";\n' for it in fit)
        write(folder / root, {TOP: text.encode()})
        done = run(words("protoc", TOP), folder / root)
        if done.returncode == 0:
            read = {path: text for it in fit for path, text in it.texts.items()}
            return Schema(root, TOP, read), others
        wrong = set(WRONG.findall(done.stderr))
        left = [it for it in fit if it.file in wrong]
        if not left:
            sys.exit(f"{root}/{TOP}: {done.stderr}")
        fit, others = [it for it in fit if it.file not in wrong], others + left


def groups(folder, schemas):
    """Files that import all of the schemas; what others import the most comes first."""
    shutil.rmtree(folder / "one", ignore_errors=True)
    counts = Counter(path for it in schemas for path in it.texts)
    rest = sorted(schemas, key=lambda it: (-counts[it.file], it.root, it.file))
    number = 0
    while rest:
        number += 1
        group, rest = together(folder, f"one/{number}", rest)
        yield group


def size_of(schemas):
    files = [text for it in schemas for text in it.texts.values()]
    return f"{len(schemas):,} runs load {len(files):,} files of {sum(map(len, files)):,} bytes"


def measure(folder, schemas, programs, is_each):
    schemas = accepted_by_all(programs, folder, schemas)
    print(f"all accept {len(schemas):,} schemas")
    if not is_each:
        schemas = accepted_by_all(programs, folder, list(groups(folder, schemas)))
    print(f"{size_of(schemas)}\n\n| program | million instructions |\n|---|---|")
    for program in programs:
        counts = at_once(lambda it: instructions(program, folder, it), schemas)
        print(f"| `{program}` | {sum(counts) / 1e6:,.1f} |", flush=True)


def main():
    parser = argparse.ArgumentParser(description=__doc__.splitlines()[0])
    parser.add_argument("folder", type=Path)
    parser.add_argument("programs", nargs="*")
    parser.add_argument("--each", action="store_true", help="a run for each schema")
    parser.add_argument("--sample", type=int, default=1, metavar="N", help="each N-th schema")
    given = parser.parse_intermixed_args()
    folder = given.folder.resolve()
    if not (folder / "list.txt").exists():
        make(folder)
    schemas = list(listed(folder))
    texts = [it.texts[it.file] for it in schemas]
    both = hashlib.sha256(b"".join(hashlib.sha256(it).digest() for it in texts)).hexdigest()
    print(f"{len(texts):,} schemas, {sum(map(len, texts)):,} bytes, sum {both[:16]}")
    programs = [str(Path(it).resolve()) if "/" in it else it for it in given.programs]
    if programs:
        measure(folder, schemas[:: given.sample], programs, given.each)


if __name__ == "__main__":
    main()
