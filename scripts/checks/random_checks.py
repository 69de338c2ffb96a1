#!/usr/bin/env python3
"""Tries the command on random small sets of files in which much is wrong: docs/testing.md.

    scripts/checks/random_checks.py --command PROGRAM [--count N] [--seed S] [--only I] [--jobs N]

The files of a set import one another, in circles too and by long chains; some are missing, can't be
read, are no UTF-8 or have no tree; names are declared more than once or nowhere, options have wrong
values, and FILEs are missing, shadowed, folders or outside of all includes. What the command must
tell of a set says a model, random_told.py: it loads and judges the files by the rules of
docs/run.md, from what was put into them and not from their texts. Told is the set whose lines on
standard error are not those of the model (file, line, column, code and the name they speak of),
whose status is not the one that these want, or of which more is said; it is made smaller first, as
long as something of that sort goes wrong. Of a text without a tree the model has one fault: what
else is told of its syntax is not looked at.

Each set is run with its FILEs in several orders, some named twice or by another spelling. What is
told must be the model's in each; and the same in all, where no circle and no long chain is told.
The status is 0 if all went as wanted."""

import argparse
import collections
import concurrent.futures
import copy
import os
import random
import re
import subprocess
import sys
import tempfile

from random_sets import INCLUDES, Maker, Outline, kind_of
from random_told import model

LINE = re.compile(
    r"(?P<file>[^:]+)(:(?P<line>\d+):(?P<col>\d+))?: error: .+ \[(?P<code>[A-Z]\d+)\]"
)


def orders(case, rng):
    """The FILEs in several orders, some of them twice, by another spelling where there is one."""
    yield case.words
    for _ in range(2):
        words = list(case.words)
        for word in case.words:
            if rng.random() < 0.3:
                path = kind_of(case, word)
                words.append(rng.choice([path, word]) if path in case.files else word)
        rng.shuffle(words)
        yield words


# ---- the command


def put_files(case, room):
    def put(path, text):
        path = os.path.join(room, path)
        os.makedirs(os.path.dirname(path), exist_ok=True)
        with open(path, "wb") as file:
            file.write(text)

    for folder in [*INCLUDES, *case.folders]:
        os.makedirs(os.path.join(room, folder), exist_ok=True)
    for path, source in case.files.items():
        if source.is_loop:
            os.symlink(os.path.basename(path), os.path.join(room, case.path_of(path)))
        else:
            put(case.path_of(path), Outline(source).text)
    for path in [*case.shadowed, *case.outside]:
        put(path, b"message Hidden {}\n")


def ran(program, room, words):
    """The lines that the command tells, by what they tell; and what is odd in how it does so."""
    includes = [it for include in INCLUDES for it in ("-I", include)]
    done = subprocess.run(
        [program, "--rules=off", *includes, *words],
        cwd=room,
        capture_output=True,
        stdin=subprocess.DEVNULL,
        timeout=60,
    )
    lines = done.stderr.decode(errors="replace").splitlines()
    found = collections.defaultdict(list)
    odd = []
    for line in lines:
        it = LINE.fullmatch(line)
        if it:
            place = (int(it["line"]), int(it["col"])) if it["line"] else (None, None)
            found[it["file"], *place, it["code"]].append(line)
        else:
            odd.append(f"a line of another form: {line}")
    if done.stdout:
        odd.append(f"on standard output: {done.stdout[:200]}")
    if done.returncode != bool(lines):
        odd.append(f"the status {done.returncode}, with {len(lines)} lines told")
    if len(set(lines)) < len(lines):
        odd.append("a line that is told twice")
    return found, odd


def difference(program, case, words):
    """What differs from the model, as lines; and what is told by it."""
    told = model(case, words)
    with tempfile.TemporaryDirectory(prefix="random_checks_") as room:
        put_files(case, room)
        lines, odd = ran(program, room, words)
    for *it, name in told:
        name = name.rpartition(".")[2]
        if it[3].startswith("E") and not any(name in line for line in lines.get(tuple(it), [name])):
            odd.append(f"told without the name `{name}`: {spelled_out(it)}")
    wanted = collections.Counter(it[:4] for it in told)
    torn = {file for file, _, _, code in wanted if code.startswith("S")}
    for it in [it for it in lines if it[0] in torn and it[3].startswith("S")]:
        if it not in wanted:
            del lines[it]
    found = collections.Counter({it: len(each) for it, each in lines.items()})
    for it, count in (wanted - found).items():
        odd.append(f"not told: {spelled_out(it)}" + (f", {count} times" if count > 1 else ""))
    for it, count in (found - wanted).items():
        odd.append(f"told: {spelled_out(it)}" + (f", {count} times" if count > 1 else ""))
    return odd, found


def spelled_out(it):
    file, line, col, code = it
    return f"{file}:{line}:{col} [{code}]" if line else f"{file} [{code}]"


# ---- what is wrong, made small


def smaller(case):
    """The same set with one thing left out, the largest first."""
    for i in range(len(case.words)):
        if len(case.words) > 1:
            it = copy.deepcopy(case)
            del it.words[i]
            yield it
    used = set(case.words)
    for path in case.files:
        if path not in used and case.path_of(path) not in used:
            it = copy.deepcopy(case)
            del it.files[path]
            yield it
    for path, source in case.files.items():
        for i in range(len(source.statements)):
            it = copy.deepcopy(case)
            del it.files[path].statements[i]
            yield it
        for i, statement in enumerate(source.statements):
            if statement[0] == "message":
                for j in range(len(statement[2])):
                    it = copy.deepcopy(case)
                    del it.files[path].statements[i][2][j]
                    yield it


def sorts(odd):
    """The sorts of what goes wrong: what is told or not, with its code."""
    return {it.partition(":")[0] + it[it.rfind("[") :] for it in odd}


def smallest(program, case, wrong):
    """A set of which nothing can be left out, in which something of these sorts goes wrong."""
    for _ in range(300):
        for it in smaller(case):
            if sorts(difference(program, it, it.words)[0]) & wrong:
                case = it
                break
        else:
            return case
    return case


def shown(case, words):
    lines = [f"FILEs: {' '.join(words)}"]
    for path, source in case.files.items():
        lines.append(f"-- {case.path_of(path)} --")
        text = b"a link to itself" if source.is_loop else Outline(source).text
        lines.append(text.decode(errors="replace").rstrip("\n"))
    return "\n".join(lines)


# ---- all sets


def tried(program, seed, number):
    """What goes wrong with a set, as a text; and the codes that it tells."""
    rng = random.Random(f"{seed}:{number}")
    case = Maker(rng).made()
    codes = collections.Counter()
    kept = []
    for words in orders(case, rng):
        odd, found = difference(program, case, words)
        codes.update(code for _, _, _, code in found)
        if odd:
            small = copy.deepcopy(case)
            small.words = list(words)
            small = smallest(program, small, sorts(odd))
            odd = difference(program, small, small.words)[0]
            told = "\n  ".join(odd)
            return f"set {number}:\n  {told}\n{shown(small, small.words)}", codes
        kept.append(found)
    follows_all = not any(code in ("L7", "L8") for found in kept for _, _, _, code in found)
    if follows_all and any(found != kept[0] for found in kept):
        return f"set {number}: another order tells other things\n{shown(case, case.words)}", codes
    return "", codes


def main():
    parser = argparse.ArgumentParser(description=__doc__.split("\n")[0])
    parser.add_argument("--command", required=True, help="the built command")
    parser.add_argument("--count", type=int, default=2000, help="how many sets")
    parser.add_argument("--seed", default="1")
    parser.add_argument("--only", type=int, help="the number of the one set to try")
    parser.add_argument("--jobs", type=int, default=os.cpu_count())
    parser.add_argument("--most", type=int, default=5, help="how many that go wrong are told")
    given = parser.parse_args()
    program = os.path.abspath(given.command)
    numbers = range(given.count) if given.only is None else [given.only]
    codes = collections.Counter()
    wrong = 0
    with concurrent.futures.ThreadPoolExecutor(given.jobs) as pool:
        for said, told in pool.map(lambda it: tried(program, given.seed, it), numbers):
            codes += told
            if said:
                wrong += 1
                if wrong <= given.most:
                    print(said, flush=True)
    print(" ".join(f"{code}={count}" for code, count in sorted(codes.items())))
    print(f"{len(numbers)} sets, {wrong} of which went wrong")
    sys.exit(bool(wrong))


if __name__ == "__main__":
    main()
