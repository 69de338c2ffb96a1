#!/usr/bin/env python3
"""Builds the C library over what the gate proved, and shows that it does what docs/c.md says.

    scripts/checks/c_library.py [--keep FOLDER] [--program COMMAND]

Run it at the top of a checkout in which `rt ci` passed. It proves and compiles the crate
protobuf_parse_c over the libraries in crates/*/out/rlib, makes an archive and a shared library,
builds examples/compile.c and, where there is a Rust compiler, examples/protobuf_parse.rs, and holds
what these and examples/protobuf_parse.py answer against the command: the bytes of sets, and each
fault. Then a thousand damaged texts go through it from four threads, and the C program runs under
AddressSanitizer and valgrind. The status is 1 where something differs.
"""

import argparse
import random
import re
import shutil
import subprocess
import sys
import tempfile
import threading
from pathlib import Path

TOP = Path(__file__).resolve().parents[2]
DATA = TOP / "crates/protobuf_parse_cli/data"
COMMAND = TOP / "crates/protobuf_parse_cli/out/protobuf_parse_cli"
NAME = "protobuf_parse_c"
INCLUDES = ["schemas", "vendor"]
INPUTS = ["shop/service.proto", "shop/legacy.proto"]
ALONE = "common/id.proto"
FAULTY = {
    "a.proto": b'syntax = "proto3";\nimport "b.proto";\nimport "none.proto";\n'
    b"message A { Oder o = 1; }\n",
    "b.proto": b'syntax = "proto3";\nmessage B { int32 x = 1 }\nmessage C { int32 y = }\n',
    "c.proto": b'syntax = "proto3";\nmessage C { int32 a = 1; int32 b = 1; }\n',
    "d.proto": b'syntax = "proto2";\nimport "e.proto";\nmessage D { optional int32 a = 1; }\n',
    "e.proto": b'syntax = "proto3";\nmessage E {}\n',
}
OVER = re.compile(r"[a-z_0-9]+(?: staticlib)?: ?(.*)")
failed = []


def ran(*words, **how):
    return subprocess.run([str(it) for it in words], capture_output=True, **how)


def must(*words, **how):
    done = ran(*words, **how)
    if done.returncode:
        said = (done.stdout + done.stderr).decode()[-3000:]
        sys.exit(f"{words[0]}: status {done.returncode}\n{said}")
    return done


def same(what, wanted, found):
    print(f"{'same' if wanted == found else 'OTHER'}: {what}")
    if wanted != found:
        print(f"  wanted {wanted!r:.400}\n  found  {found!r:.400}")
        failed.append(what)


def listed():
    """The crates of crates.txt, each with what it stands on."""
    rows = [line.partition("#")[0] for line in (TOP / "crates.txt").read_text().splitlines()]
    return {row.split(":")[0].split()[0]: row.split(":")[1].split() for row in rows if row.strip()}


def below(crate, crates):
    """What the crate stands on, each once."""
    found = []
    for name in crates.get(crate, []):
        found += [it for it in [*below(name, crates), name] if it not in found]
    return found


def libraries(room, kit):
    """Proves and compiles the crate, and links it."""
    crates = listed()
    words = ["--crate-name", NAME, "src/lib.rt", "--crate-type", "staticlib"]
    for name in ["std", *below(NAME, crates)]:
        rlib = TOP / f"crates/{name}/out/rlib/{name}.rlib"
        is_ours = name in crates
        if name in ["std", *crates[NAME]]:
            words += ["--extern", f"{name}={rlib if is_ours else kit / f'rlibs/{name}.rlib'}"]
        if is_ours:
            words += ["-L", f"dependency={rlib.parent}"]
    words += ["-L", f"dependency={kit}/rlibs"]
    words += ["--antt-project", f"{kit}/rattle/logic/antt-project.json"]
    words += ["--logic-built", f"{kit}/logic_built", "--toolchain", f"{kit}/toolchain"]
    words += ["--jobs", "1"]
    words += ["--backend", "llvm", "-o", room / "crate.a"]
    done = must(kit / "bin/rattle", "build", *words, cwd=TOP / "crates" / NAME)
    said = (done.stdout + done.stderr).decode().splitlines()
    print(*[line for line in said if line.startswith("logic=")], sep="\n")
    return linked(room, kit)


def linked(room, kit):
    """The archive of the crate with the toolchain's C parts in it, and a shared library."""
    parts = [room / "crate.a", kit / "c/liblibc_c.a", kit / "c/libos_c.a"]
    script = "".join(f"addlib {it}\n" for it in parts)
    made = room / "libprotobuf_parse.a"
    must("ar", "-M", input=f"create {made}\n{script}save\nend\n".encode())
    shared = room / "libprotobuf_parse.so"
    must("cc", "-shared", "-o", shared, "-Wl,--whole-archive", made, "-Wl,--no-whole-archive")
    return made, shared


def programs(room, archive):
    """The programs in C, plain and with AddressSanitizer, and in Rust."""
    built = {}
    source = TOP / "examples/compile.c"
    for name, flags in (("compile", []), ("compile_asan", ["-fsanitize=address,undefined", "-g"])):
        built[name] = room / name
        words = ["-std=c11", "-Wall", "-Wextra", "-Werror", f"-I{TOP / 'include'}", *flags]
        must("cc", *words, source, archive, "-o", built[name])
    if shutil.which("rustc"):
        built["rust"] = room / "rust"
        words = ["--edition", "2024", "-O", "-L", room, "-l", "static=protobuf_parse"]
        must("rustc", *words, TOP / "examples/protobuf_parse.rs", "-o", built["rust"])
    return built


def include_words():
    return [word for include in INCLUDES for word in ("-I", include)]


def by_command(command, room):
    """The sets of the command, without and with source info."""
    sets = []
    for flags in ([], ["--include_source_info"]):
        made = room / "command.pb"
        must(command, *include_words(), "--include_imports", *flags, "-o", made, *INPUTS, cwd=DATA)
        sets.append(made.read_bytes())
    return sets


def sets_are_same(room, command, built, library):
    plain, with_info = by_command(command, room)
    files = library.read(INPUTS, [DATA / it for it in INCLUDES])
    for name in ("compile", "compile_asan"):
        for flags, wanted in (([], plain), (["-s"], with_info)):
            made = room / f"{name}.pb"
            must(built[name], *include_words(), *flags, "-o", made, *INPUTS, cwd=DATA)
            same(f"set of {name} {' '.join(flags)}", wanted, made.read_bytes())
    same("set of Python", plain, library.compiled(INPUTS, files))
    found = library.compiled(INPUTS, files, source_info=True)
    same("set of Python with source info", with_info, found)
    if "rust" in built:
        words = ["-I", ".", "--include_imports", "-o", "-"]
        one = must(command, *words, ALONE, cwd=DATA / "schemas")
        found = must(built["rust"], ALONE, cwd=DATA / "schemas")
        same("set of Rust", one.stdout, found.stdout)


def faults_are_same(room, command, built, library):
    folder = room / "faulty"
    folder.mkdir()
    for path, content in FAULTY.items():
        (folder / path).write_bytes(content)
    words = ["--rules=T19=off", "-o", room / "x.pb"]
    for path in FAULTY:
        wanted = ran(command, *words, path, cwd=folder)
        found = ran(built["compile"], "-I", ".", path, cwd=folder)
        lines = [without_places_asked(it.stderr) for it in (wanted, found)]
        same(f"lines of {path}", *lines)
        same(f"status of {path}", wanted.returncode, found.returncode)
        status, _, told = library.told([path], FAULTY)
        count = len(found.stderr.splitlines())
        same(f"faults of {path} by Python", (found.returncode, count), (status, len(told)))
    for path in ("", "/x.proto", "a//b.proto", "../a.proto", "a\\b.proto"):
        status, made, told = library.told([path], FAULTY)
        same(f"input {path!r}", (1, b"", 1, "error"), (status, made, len(told), told[0].severity))


def without_places_asked(lines):
    """The lines, without the words that say where a missing file was looked for."""
    return re.sub(rb"; it was looked for in .*? \[", b" [", lines)


def damaged(dice):
    """A text with a few bytes changed, left out, doubled or put in."""
    text = bytearray(dice.choice([*FAULTY.values()]))
    for _ in range(dice.randrange(1, 6)):
        at = dice.randrange(len(text) + 1)
        text[at : at + dice.randrange(3)] = bytes(dice.choices(range(256), k=dice.randrange(3)))
    return bytes(text)


def threads_agree(library):
    """A thousand damaged texts, by four threads at once: each answers as when it is alone."""
    dice = random.Random(7)
    texts = [damaged(dice) for _ in range(1000)]
    alone = [library.told(["x.proto"], {"x.proto": text, **FAULTY}) for text in texts]
    found = [[] for _ in range(4)]

    def work(number):
        for text in texts:
            found[number].append(library.told(["x.proto"], {"x.proto": text, **FAULTY}))

    workers = [threading.Thread(target=work, args=(n,)) for n in range(4)]
    for it in workers:
        it.start()
    for it in workers:
        it.join()
    for number in range(4):
        same(f"a thousand damaged texts by thread {number}", alone, found[number])


def under_valgrind(room, built):
    if not shutil.which("valgrind"):
        print("no valgrind here")
        return
    words = ["valgrind", "-q", "--error-exitcode=9", "--leak-check=full", built["compile"]]
    done = ran(*words, *include_words(), "-s", "-o", room / "v.pb", *INPUTS, cwd=DATA)
    same("the C program under valgrind", (0, b""), (done.returncode, done.stderr))


def main():
    options = argparse.ArgumentParser()
    options.add_argument("--keep")
    options.add_argument("--program", default=str(COMMAND))
    options = options.parse_args()
    kit = Path(must("rt", "doc").stdout.decode().strip()).parent
    command = Path(options.program).resolve()
    with tempfile.TemporaryDirectory() as folder:
        room = Path(options.keep or folder).resolve()
        room.mkdir(parents=True, exist_ok=True)
        archive, shared = libraries(room, kit)
        built = programs(room, archive)
        sys.path.insert(0, str(TOP / "examples"))
        import protobuf_parse

        library = protobuf_parse.Library(str(shared))
        shutil.rmtree(room / "faulty", ignore_errors=True)
        sets_are_same(room, command, built, library)
        faults_are_same(room, command, built, library)
        threads_agree(library)
        under_valgrind(room, built)
    sys.exit(1 if failed else 0)


if __name__ == "__main__":
    main()
