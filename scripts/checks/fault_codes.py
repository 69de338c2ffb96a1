#!/usr/bin/env python3
"""Whether docs/faults.md has each code of the code, and no other, once.

Run it at the top of the repository. It prints the codes that one of them lacks, each whose input is
a text that told.cases doesn't have, and each rule for which docs/rules.md doesn't have once what
`protoc` says; the status is 1 if there are any.
"""

import re
import sys
from pathlib import Path


def codes_of_code():
    found = []
    for file in sorted(Path("crates/protobuf_parse_command/src").rglob("*.rt")):
        found += re.findall(r'^const [A-Z_]+: &str = "([SPELBCT][0-9]+)";', file.read_text(), re.M)
    for crate in ("protobuf_parse_diagnostics", "protobuf_parse_rules", "protobuf_parse_text_rules"):
        for file in sorted((Path("crates") / crate / "src").rglob("*.rt")):
            found += re.findall(r'=> "([SPELBCT][0-9]+)"', file.read_text())
    return found


def items_of_page():
    """The code of each item of a list, and what stands in the parentheses at its end, or nothing."""
    page = Path("docs/faults.md").read_text().replace("\n  ", " ")
    for code, said in re.findall(r"^- \*\*(\w+)\*\* (.*)$", page, re.M):
        given = re.search(r" \((`.*)\)$", said)
        yield code, given[1] if given else ""


def rules_of_protoc():
    """The codes in the list of what `protoc` says; a line may have several."""
    table = Path("docs/rules.md").read_text().split("## What `protoc` says")[1].split("\n## ")[0]
    for cell in re.findall(r"^    ([CT][0-9]+(?:, [CT][0-9]+)*) ", table, re.M):
        yield from cell.split(", ")


def main():
    rows = list(items_of_page())
    page, code = [row[0] for row in rows], codes_of_code()
    wrong = []
    for name in sorted(set(page) | set(code)):
        if page.count(name) != 1 or code.count(name) != 1:
            wrong.append(f"{name}: {page.count(name)} in docs/faults.md, {code.count(name)} in the code")
    said = list(rules_of_protoc())
    for name in sorted({name for name in page if name[0] in "CT"} | set(said)):
        if page.count(name) != 1 or said.count(name) != 1:
            wrong.append(f"{name}: {said.count(name)} in docs/rules.md, of what protoc says")
    cases = Path("crates/protobuf_parse_cases/data/told.cases").read_text()
    for name, given in rows:
        whole = re.fullmatch(r"`([^`]+)`", given)
        if whole and not given.startswith("`-I") and whole[1] not in cases:
            wrong.append(f"{name}: told.cases lacks {whole[1]}")
    print("\n".join(wrong) or f"{len(page)} codes")
    return 1 if wrong else 0


if __name__ == "__main__":
    sys.exit(main())
