#!/usr/bin/env python3
"""Refuses memory to the cases and to the program, one request at a time: docs/testing.md.

    scripts/checks/memory_refused.py [--most N] [--jobs J] [--cases PROGRAM] [--program PROGRAM]
        [--command PROGRAM] [NAME..]

For each row of the files of cases (or of those that are named), and for the program and the command
on some files (where nothing is named, or the words program and command), it runs the built program
with its first request for memory refused, then with its second one, and so on until a run meets no
refusal. Each run must say that it is out of memory, or give the row's answer; the last one gives
the answer. The program may tell its usage too, in the runs where its arguments can't be read. A run
of the command that says so says nothing else, ends with 1, and leaves all files as they were. Rows
that make more than N requests (5000) have only each seventh, or each 70th, refused. The status is 0
if all runs are right."""

import argparse
import concurrent.futures
import glob
import itertools
import os
import re
import stat
import subprocess
import sys
import tempfile

TOP = os.path.normpath(os.path.join(os.path.dirname(os.path.abspath(__file__)), "../.."))
DATA = f"{TOP}/crates/protobuf_parse_cases/data"
WELL = "one.cases: 1 of 1\n"
MEMORY = "out of memory"
# The rows of the program that have its two arguments, and one that has not. Where a request for the
# arguments is refused, `main` hands over none, and the former tell their usage as the latter does.
PROGRAM_ROWS = ("d/x.proto d", "d/b.proto d", "top.proto .", "a b")
USAGE_ROW = "a"
USAGE = "usage: parse-and-typecheck <input.proto> <include>\n"
# What stands for it where the program that runs the cases lacks memory itself.
OWN = re.compile(
    r"(Error: (.*: |one.cases\n\nCaused by:\n +)?|one.cases can't be read: (line \d+: )?)"
    r"(memory allocation failed|[Oo]ut of memory)\n"
)
# All that the command says where memory is short.
SHORT_OF_MEMORY = f"protobuf_parse_cli: {MEMORY}\n"
# What the command is run on, in a folder with the data of the cases and the files OUTPUTS.
COMMAND_ROWS = (
    "-I shop orders/order.proto",
    "-I shop --list --include_imports -o old.pb orders/order.proto",
    "-I shop -o new.pb orders/order.proto customers/customer.proto",
    "-I shop -o far orders/order.proto",
    "-I shop -o two orders/order.proto",
    "-I shop -o folder orders/order.proto",
    "-I shop -o /dev/stdout orders/order.proto",
    "--imports -I shop orders/order.proto customers/customer.proto",
    "-I faulty -o old.pb faulty/a.proto faulty/own.proto faulty/fine.proto",
    "-I both -I odd odd/a.proto odd/bad.proto odd/bytes.proto",
    "-I odd odd/c.proto odd/uses_c.proto no.proto",
    "--rules=warn --list -o old.pb rules/numbers.proto rules/unused.proto",
    "--rules=never top.proto",
    "--help",
    "--version",
    "",
    "caf\udce9.proto",
)
OLD = b"what was there before\n"
SHORT = re.compile(
    r"(no answer: (.*: )?)?(memory allocation failed|[Oo]ut of memory)|at 0:0: out of memory"
)


def rows_of(name):
    """Each row of a file of cases as a file of its own, with its line's number."""
    with open(name, encoding="utf-8") as file:
        content = file.read()
    line = content.split("=== ")[0].count("\n") + 1
    for case in re.split("^(?==== )", content, flags=re.M)[1:]:
        head, mark, rows = case.partition("-- rows --\n")
        if not mark:
            yield line, case
        for row in re.finditer(r"^(?![# ]).* => .*(\n    .*)*", rows, flags=re.M):
            before = rows[: row.start()].count("\n")
            yield line + head.count("\n") + 1 + before, head + mark + row[0] + "\n"
        line += case.count("\n")


class Refuser:
    """Runs a program with requests for memory refused."""

    def __init__(self, library):
        self.library = library

    def records(self, words, folder, **setting):
        """For each run N, whether it met a refusal, or how many requests there were;
        and what it wrote."""
        reading, writing = os.pipe()
        env = {"LD_PRELOAD": self.library, "REFUSE_TO": str(writing)}
        env.update({f"REFUSE_{name}": str(value) for name, value in setting.items()})
        program = subprocess.Popen(words, cwd=folder, env=env, pass_fds=[writing])
        os.close(writing)
        with open(reading, "rb") as file:
            while line := file.readline():
                n, status, met, length = map(int, line.split())
                yield n, status, met, file.read(length).decode(errors="replace")
        if program.wait():
            raise RuntimeError(f"{words} could not be run")

    def runs(self, words, folder, most):
        """The runs that are wanted of a program that makes many requests, and how many it makes."""
        count = next(self.records(words, folder, COUNT=1))[2]
        step = 1 if count <= most else 7 if count <= 7 * most else 70
        return count, step, self.records(words, folder, STEP=step)


def is_begun(found, wanted):
    """Whether a log without descriptors has a beginning of the reads that are wanted."""
    found, wanted = found.split("|"), wanted.split("|")
    if len(found) < 3 or len(wanted) < 3:
        return False
    reads = found[1].split()
    # A read that memory was short for is not among them.
    return reads == wanted[1].split()[: len(reads)]


def is_read(found, wanted):
    """Whether the lines are the wanted ones, but for what is read back where memory is short."""
    found, wanted = found.split("\n"), wanted.split("\n")
    return len(found) == len(wanted) and all(
        it == other or it == " ".join([*other.split(" ")[:2], MEMORY])
        for it, other in zip(found, wanted)
    )


def is_cut(found, wanted):
    """Whether the command, whose outputs stand in memory here, tells that it is short, behind what
    was written before, or lacks the output that had no memory, and has ended with 1."""
    status, _, said = found.partition("\n")
    answer = wanted.partition("\n")[2]
    return status == "1" and said.removesuffix(SHORT_OF_MEMORY.strip()) in answer


def is_right(status, text, verb):
    """Whether a run has the answer, or is out of memory. One that shows its reads alone has a
    beginning."""
    if text == WELL:
        return status == 0
    if OWN.fullmatch(text):
        return status != 0
    told = re.fullmatch(
        r"one.cases:\d+: .*\nwanted: (.*)\nfound: (.*)\none.cases: 0 of 1\n", text, re.S
    )
    if not told or status == 0:
        return False
    wanted, found = told.groups()
    if verb == "reads" and (found == "" or wanted.startswith(found + "\n")):
        return True
    if verb == "command" and is_cut(found, wanted):
        return True
    if verb == "customs" and is_read(found, wanted):
        return True
    if found.startswith(f"{MEMORY} |"):
        return is_begun(found, wanted)
    return bool(SHORT.fullmatch(found))


def judged(title, runs, last):
    """How many refusals were met, and a line for each other answer than is wanted."""
    count, step, records = runs
    refusals, faults, met, text, status = 0, {}, 1, "", 0
    for n, status, met, text in records:
        refusals += met
        if not last(status, text, met):
            faults.setdefault((status, text), []).append(n)
    if met:
        faults["no run without a refusal"] = [refusals]
    lines = [f"{title}: {len(at)} runs, the first {at[0]}: {what}" for what, at in faults.items()]
    return count, step, refusals, lines


def try_row(refuser, options, name, line, content):
    with tempfile.TemporaryDirectory() as folder:
        for it in os.listdir(DATA):
            if not it.endswith(".cases"):
                os.symlink(f"{DATA}/{it}", f"{folder}/{it}")
        with open(f"{folder}/one.cases", "w", encoding="utf-8") as file:
            file.write(content)
        runs = refuser.runs([options.cases], folder, options.most)
        verb = content.split("\n")[1].split(" ")[0]
        right = lambda status, text, met: is_right(status, text, verb) and (met or text == WELL)
        return judged(f"{name}:{line}", runs, right)


def try_program(refuser, options, folder, row):
    words = [options.program, *row.split()]
    run = subprocess.run(words, cwd=folder, stdout=subprocess.PIPE, stderr=subprocess.STDOUT)
    wanted = (run.returncode, run.stdout.decode())
    # Arguments are read before all else.
    are_read = row == USAGE_ROW

    def right(status, text, met):
        nonlocal are_read
        told = (os.waitstatus_to_exitcode(status), text)
        if not are_read and met and told == (1, USAGE):
            return True
        are_read = True
        return told == wanted or (met and told == (1, f"{MEMORY}\n"))

    return judged(f"program {row}", refuser.runs(words, folder, options.most), right)


def laid_out(folder):
    """The files that the command may write, as they are before a run, and what it finds in them."""
    for name in ("new.pb", "old.pb", "one", "two", "far"):
        if os.path.lexists(f"{folder}/{name}"):
            os.remove(f"{folder}/{name}")
    for name in ("old.pb", "one"):
        with open(f"{folder}/{name}", "wb") as file:
            file.write(OLD)
        os.chmod(f"{folder}/{name}", 0o640)
    os.link(f"{folder}/one", f"{folder}/two")
    os.symlink("old.pb", f"{folder}/far")


def found_in(folder):
    """Each name in the folder, with its mode and its bytes."""
    found = []
    for name in sorted(os.listdir(folder)):
        path = f"{folder}/{name}"
        mode = os.lstat(path).st_mode
        content = open(path, "rb").read() if stat.S_ISREG(mode) else None
        found.append((name, mode, content))
    return found


def try_command(refuser, options, row):
    with tempfile.TemporaryDirectory() as folder:
        for it in os.listdir(DATA):
            if not it.endswith(".cases"):
                os.symlink(f"{DATA}/{it}", f"{folder}/{it}")
        os.mkdir(f"{folder}/folder")
        words = [options.command, *row.split()]
        count = next(refuser.records(words, folder, COUNT=1))[2]
        step = 1 if count <= options.most else 7 if count <= 7 * options.most else 70
        laid_out(folder)
        short = (1, SHORT_OF_MEMORY, found_in(folder))
        ends = {"stdout": subprocess.PIPE, "stderr": subprocess.STDOUT}
        run = subprocess.run(words, cwd=folder, **ends)
        wanted = (run.returncode, run.stdout.decode(errors="replace"), found_in(folder))
        refusals, faults, met = 0, {}, 1
        for n in itertools.count(1, step):
            laid_out(folder)
            _, status, met, text = next(refuser.records(words, folder, FROM=n, ONCE=1))
            refusals += met
            told = (os.waitstatus_to_exitcode(status), text, found_in(folder))
            if told != wanted and not (met and told == short):
                faults.setdefault((told[0], text, told[2] == short[2]), []).append(n)
            if not met:
                break
        lines = [
            f"command {row!r}: {len(at)} runs, the first {at[0]}: {what}"
            for what, at in faults.items()
        ]
        return count, step, refusals, lines


def tasks(refuser, options):
    all_names = sorted(os.path.basename(it) for it in glob.glob(f"{DATA}/*.cases"))
    # What is printed for a file of cases has its own faults in it.
    all_names.remove("cases.cases")
    for name in options.names or all_names:
        if name in ("program", "command"):
            continue
        for line, content in rows_of(f"{DATA}/{name}"):
            yield try_row, (refuser, options, name, line, content)
    if not options.names or "program" in options.names:
        for row in (*PROGRAM_ROWS, USAGE_ROW):
            yield try_program, (refuser, options, DATA, row)
    if not options.names or "command" in options.names:
        for row in COMMAND_ROWS:
            yield try_command, (refuser, options, row)


def main():
    parser = argparse.ArgumentParser(description=__doc__.split("\n")[0])
    crates = f"{TOP}/crates"
    parser.add_argument("--most", type=int, default=5000)
    parser.add_argument("--jobs", type=int, default=2)
    parser.add_argument(
        "--cases", default=f"{crates}/protobuf_parse_cases/out/protobuf_parse_cases"
    )
    parser.add_argument(
        "--program", default=f"{crates}/protobuf_parse_program/out/protobuf_parse_program"
    )
    parser.add_argument("--command", default=f"{crates}/protobuf_parse_cli/out/protobuf_parse_cli")
    parser.add_argument("names", nargs="*")
    options = parser.parse_args()
    rows = whole = refusals = faults = 0
    with tempfile.TemporaryDirectory() as folder:
        library = f"{folder}/refuse.so"
        source = f"{TOP}/scripts/checks/refuse.c"
        subprocess.run(["cc", "-O1", "-shared", "-fPIC", "-o", library, source], check=True)
        with concurrent.futures.ThreadPoolExecutor(options.jobs) as pool:
            started = [
                pool.submit(what, *given) for what, given in tasks(Refuser(library), options)
            ]
            for it in concurrent.futures.as_completed(started):
                _, step, met, lines = it.result()
                rows, whole, refusals = rows + 1, whole + (step == 1), refusals + met
                faults += bool(lines)
                for line in lines:
                    print(line, flush=True)
    print(
        f"{rows} rows, {whole} of them with each request; "
        f"{refusals} refusals; {faults} rows not as wanted"
    )
    return 1 if faults else 0


sys.exit(main())
