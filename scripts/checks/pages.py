#!/usr/bin/env python3
"""Checks the pages: links, names of files and scripts, counts of words, and commands.

    scripts/checks/pages.py [--run]

Run it at the top of the repository. Each link leads to a file, each path of the repository that a
page names is there, and each definition, function and case of docs/HOUSE.md; no page is longer than
it may be, and the modules of docs/definitions.md are in the crates of their sections. With --run the
commands of README.md and docs/TUTORIAL.md are run, one after the other, in a copy of the repository
with the files that the pages show: those that begin with `cd`, `rt try`, `out/`, `protoc`, `cat`,
`echo` or `mkdir`. Programs in out/ are those that `rt run` has built. The status is 1 if anything is
wrong.
"""

import re
import shutil
import subprocess
import sys
import tempfile
from pathlib import Path

MOST_WORDS = {"README.md": 1200, "docs/PERFORMANCE.md": 1500}
PATH = re.compile(r"`((?:crates|docs|scripts)/[\w./-]+)`|(?<![\w/`(])(docs/[\w-]+\.md)")
MADE = re.compile(r"/(out|stdout)(/|$)|\*|^crates/my_linter")
COMMAND = re.compile(r"(rt try|out/|protoc|cat|echo|mkdir) ?")


def pages():
    return [Path("README.md"), Path("CHANGELOG.md"), *sorted(Path("docs").glob("*.md")),
            *sorted(Path("crates").glob("*/CALLING.md"))]  # fmt: skip


def wrong_links(page, text):
    for target in re.findall(r"\]\(([^)#:]+?)(?:#[^)]*)?\)", text):
        if not (page.parent / target).exists():
            yield f"{page}: no {target}"


def wrong_paths(page, text):
    for code, plain in PATH.findall(text):
        path = code or plain
        if not MADE.search(path) and not Path(path).exists():
            yield f"{page}: no {path}"


def wrong_rooms():
    """Files, names and cases of the table of rules in docs/HOUSE.md that are not there."""
    for line in Path("docs/HOUSE.md").read_text().splitlines():
        cells = [cell.strip() for cell in line.strip("|").split("|")]
        if len(cells) != 4 or not cells[3].startswith("`") or ".cases" not in cells[3]:
            continue
        for cell, top in zip(cells[1:], ["protobuf_parse_"] * 2 + ["protobuf_parse_cases/data/"]):
            found = re.fullmatch(r"`([\w/.]+)`(?:: `?([^`]+)`?)?", cell)
            path = Path(f"crates/{top}{found.group(1)}") if found else None
            if path is None or not path.exists():
                yield f"docs/HOUSE.md: no {cell}"
            elif found.group(2) and found.group(2) not in path.read_text():
                yield f"docs/HOUSE.md: {path} has no {found.group(2)}"


def wrong_modules():
    """Names in docs/definitions.md that stand neither in the crate of their section nor below it."""
    texts = {}
    for path in Path("crates").glob("*/*/*.antt"):
        crate = texts.setdefault(path.parts[1], [])
        crate += [path.stem, *re.findall(r"[\w-]+", path.read_text())]
    for section in Path("docs/definitions.md").read_text().split("\n## ")[1:]:
        title, _, rest = section.partition("\n")
        crates = re.findall(r"`(protobuf_parse\w*)`", section)
        known = {word for crate in crates for word in texts.get(crate, [])}
        for name in re.findall(r"`([A-Z]\w+)`(?!, section)", rest) if "protobuf_parse" in title else []:
            if name not in known:
                yield f"docs/definitions.md: {title}: no {name}"


def steps(text):
    """The files that a page shows, each as its path and its lines, and the lines of its commands,
    each with None. A file's path stands in the line before the block of code."""
    path, shown, said = None, None, ""
    for line in text.splitlines():
        if line.startswith("```"):
            if shown is None:
                found = re.search(r"`(crates/[\w./-]+)`:?$", said)
                path, shown = (found.group(1) if found else None), []
            else:
                if path:
                    yield path, shown
                shown = None
        elif shown is not None:
            shown.append(line)
        elif line.startswith("    "):
            yield line[4:], None
        if line.strip():
            said = line.strip()


def built(top):
    """Gives the copy the programs that stand built in the repository."""
    for program in Path("crates").glob("*/out/*"):
        if program.name == program.parent.parent.name and program.is_file():
            (top / program.parent).mkdir(exist_ok=True)
            shutil.copy(program, top / program)


def run_commands(page):
    """Runs the commands of a page in a copy; those that fail are told."""
    with tempfile.TemporaryDirectory() as folder:
        top = Path(folder) / "copy"
        subprocess.run(["git", "clone", "-q", ".", top], check=True)
        built(top)
        here, missing = top, False
        for step, lines in steps(page.read_text()):
            if lines is not None:
                (top / step).parent.mkdir(parents=True, exist_ok=True)
                (top / step).write_text("\n".join(lines) + "\n")
            elif step.startswith("cd "):
                here, missing = top / step[3:].strip(), False
            elif COMMAND.match(step):
                # what stands behind a program that isn't built may need what that writes
                missing = missing or step.startswith("out/") and not (here / step.split()[0]).exists()
                if missing:
                    print(f"{page}: not built, not run: {step}")
                    continue
                done = subprocess.run(step, shell=True, cwd=here, capture_output=True, text=True)
                if done.returncode != 0:
                    yield f"{page}: {step}: status {done.returncode}: {done.stderr[-300:]}"
        shutil.rmtree(top, ignore_errors=True)


def main():
    wrong = []
    for page in pages():
        text = page.read_text()
        wrong += [*wrong_links(page, text), *wrong_paths(page, text)]
        words, most = len(text.split()), MOST_WORDS.get(str(page))
        if most and words > most:
            wrong.append(f"{page}: {words} words, and {most} are enough")
    wrong += [*wrong_rooms(), *wrong_modules()]
    if "--run" in sys.argv:
        for page in (Path("README.md"), Path("docs/TUTORIAL.md")):
            wrong += run_commands(page)
    print("\n".join(wrong) or f"{len(pages())} pages")
    return 1 if wrong else 0


if __name__ == "__main__":
    sys.exit(main())
