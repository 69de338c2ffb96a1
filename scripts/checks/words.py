#!/usr/bin/env python3
"""The words of the house: their page, and where the code uses one that has another in its place.

    scripts/checks/words.py [--page]

Run it at the top of the repository. scripts/checks/words.lines has the words: a line `# title` begins a
section, and each other line has a word, where others have another for it that, and what it is, with
` | ` between them; the last section has words that are not to stand in the code. With --page it
prints the page, which is docs/words.md. Without, each place of such a word is printed, each word
that stands twice, and whether the page is another; the status is 1 if there is any.
"""

import re
import sys
import textwrap
from pathlib import Path

HEAD = """# Words

What these pages, the definitions and the code call things, beside the words of the field; in parentheses what others
call them. `scripts/checks/words.py --page` prints this page.
"""
LAST = "Code and definitions use the words above. `scripts/checks/words.py` tells where these stand in their place:\n"


def sections():
    """The title of each section with its rows: a word, what others call it, and what it is."""
    found = []
    for line in Path("scripts/checks/words.lines").read_text().splitlines():
        if line.startswith("# "):
            found.append((line[2:], []))
        else:
            word, *others, what = line.split(" | ")
            found[-1][1].append((word, "".join(others), what))
    return found


def wrapped(text):
    """An item of a list, in lines; no code is broken."""
    kept = re.sub(r"`[^`]*`", lambda code: code[0].replace(" ", "\0"), text)
    lines = textwrap.wrap(kept, 120, subsequent_indent="  ", break_long_words=False, break_on_hyphens=False)
    return "\n".join(lines).replace("\0", " ")


def page():
    table = sections()
    said = [HEAD]
    for title, rows in table:
        said.append(f"## {title}\n")
        if title == table[-1][0]:
            said.append(LAST)
        items = []
        for word, other, what in rows:
            name = word if word.startswith("`") else f"**{word}**"
            items.append(wrapped(f"- {name}{f' ({other})' if other else ''}: {what}"))
        said.append("\n".join(items) + "\n")
    return "\n".join(said)


def twice(table):
    words = [word.removeprefix("to ") for _, rows in table for word, _, _ in rows]
    return sorted({word for word in words if words.count(word) > 1})


def main():
    if "--page" in sys.argv:
        print(page(), end="")
        return 0
    table = sections()
    wrong = [f"scripts/checks/words.lines: {word} stands twice" for word in twice(table)]
    if Path("docs/words.md").read_text() != page():
        wrong.append("docs/words.md: another than scripts/checks/words.py --page prints")
    left_out = [name for word, _, _ in table[-1][1] for name in re.findall(r"`([\w:]+)`", word)]
    words = re.compile(r"(?<![\w:])(?:" + "|".join(map(re.escape, left_out)) + r")(?!\w)")
    for path in sorted(Path("crates").rglob("*")):
        if path.suffix not in (".rt", ".antt") or "out" in path.parts:
            continue
        for number, line in enumerate(path.read_text().splitlines(), 1):
            for word in words.findall(line):
                if word != "convert" or "std::convert" not in line:
                    wrong.append(f"{path}:{number}: {word}")
    print("\n".join(wrong) or f"{sum(len(rows) for _, rows in table)} words")
    return 1 if wrong else 0


if __name__ == "__main__":
    sys.exit(main())
