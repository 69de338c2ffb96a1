#!/usr/bin/env python3
"""Which definitions the clauses of public functions rest on, and how many lines they have.

Run it at the top of the repository: scripts/checks/definitions.py prints each file of specs/ that has
such a definition, with the lines of these definitions and of the whole file and the first sentence
of its comment, and the sums, by crates and of all. With --unused it lists the definitions of specs/ that no public clause rests on. They
stand in files of their own, which begin with the line MARK, each definition that a public clause
rests on has a comment of its own, and docs/definitions.md says the sum of all; where that is not so
the status is 1.
"""

import re
import sys
from collections import defaultdict
from pathlib import Path

PAGE = Path("docs/definitions.md")
MARK = "-- No public clause rests on this file.\n"
CRATES = "base grammar lexer syntax recovery expected text_rules comments source_info records".split()
CRATES += "model elaboration wire options".split()
CRATES += "decode merged wire_changes changes".split()
CRATES += "descriptor_set set_reader set_rules set_laws listing proto_text rules index option_paths locations name_rules".split()
CRATES += ["location_laws"]
CRATES += "google run load check".split() + [""]
CRATES += "diagnostics files command c".split()
# Parts of a run that the load and the check share with it: no caller has a use for them.
SHARED = "elaborated loaded reach repeats tables LoadedFile compared content_of read_own".split()
TOKEN = re.compile(r"[^\s(){};,λ\[\]`:!&]+")
USE = r"(?:^|(?<=\n))\s*(?:ghost |pub |unfoldable )*use (Rattle\.[^\s{;]+?)"
SIGNATURE = re.compile(
    r"\s*(?:abbrev |unfoldable )?(?:pub )?(?:(?:data|record) ([^\s{]+)|([A-Za-z◌«][^\s(){}:]*) :)"
)


def crate_folder(crate):
    return Path("crates") / ("protobuf_parse_" + crate if crate else "protobuf_parse")


def imports_of(text):
    """Names to modules, and aliases to modules, by the `use` lines."""
    names, aliases = {}, {}
    for found in re.finditer(USE + r"\.\{([^}]*)\}", text):
        for item in found.group(2).split(","):
            old, _, new = item.strip().partition(" as ")
            names[new or old] = (found.group(1), old)
    for found in re.finditer(USE + r"(?: as (\w+))?;?$", text, re.MULTILINE):
        aliases[found.group(2) or found.group(1).split(".")[-1]] = found.group(1)
    return names, aliases


def resolve(word, module, names, aliases, own):
    """The definition that a word means, as its module and name."""
    head, _, rest = word.partition(".")
    if head in aliases and rest:
        return aliases[head], rest.split(".")[0]
    if head in own:
        return module, head
    return names.get(head)


class Definition:
    def __init__(self, module, path, body):
        self.module, self.path, self.lines, self.rests_on = module, path, len(body), set()
        self.comments = sum(line.strip().startswith("--") for line in body)


def paragraphs(text):
    return [part for part in re.split(r"\n\s*\n", text) if part.strip()]


def names_in(part):
    """The names that a paragraph defines: its signatures and constructors, and no fields."""
    names, record = set(), None
    for line in part.split("\n"):
        depth = len(line) - len(line.lstrip())
        if record is not None and depth > record:
            continue
        record = depth if re.match(r"\s*(abbrev |unfoldable )?(pub )?record ", line) else None
        found = None if line.strip().startswith("--") else SIGNATURE.match(line)
        if found:
            names.add(found.group(1) or found.group(2))
    return names


def read_specs():
    """All definitions by module and name."""
    found, sizes = {}, {}
    texts = {}
    for crate in CRATES:
        folder = crate_folder(crate)
        for path in sorted((folder / "specs").rglob("*.antt")):
            if "declared" in path.parts or path.name == "Lib.antt":
                continue
            inner = ".".join(path.relative_to(folder / "specs").with_suffix("").parts)
            texts[f"Rattle.{folder.name}.specs.{inner}"] = (path, path.read_text())
    passed_on = {}
    for module, (path, text) in texts.items():
        sizes[path] = text.count("\n")
        for part in paragraphs(text):
            body = [line for line in part.split("\n") if not re.match(r"\s*(\w+ )*use ", line)]
            definition = Definition(module, path, body)
            for name in names_in("\n".join(body)):
                found.setdefault((module, name), definition)
        given = re.findall(r"(?m)^(?:unfoldable )?pub use .*$", text)
        for name, target in imports_of("\n".join(given))[0].items():
            passed_on[(module, name)] = target
    link(texts, found, passed_on)
    return found, sizes, passed_on


def link(texts, found, passed_on):
    for module, (path, text) in texts.items():
        names, aliases = imports_of(text)
        own = {name for (where, name) in found if where == module}
        for part in paragraphs(text):
            code = re.sub(r"--.*", "", part)
            here = {found[(module, n)] for n in names_in(part) if (module, n) in found}
            for word in TOKEN.findall(code):
                for name in (word, f"◌{word}◌") if word != "do" else ("◌>>=◌", "◌>>◌"):
                    target = resolve(name, module, names, aliases, own)
                    target = passed_on.get(target, target)
                    if target in found:
                        for definition in here:
                            definition.rests_on.add(found[target])


def exported(crate):
    """The names that a crate gives to others, and its public modules."""
    text = (crate_folder(crate) / "src" / "lib.rt").read_text()
    names = set()
    for found in re.finditer(r"pub use [\w:]+?(?:::\{([^}]*)\}|::(\w+));", text):
        names |= {n.strip() for n in (found.group(1) or found.group(2)).split(",") if n.strip()}
    names |= set(re.findall(r"(?m)^pub (?:extern \"C\" )?fn (\w+)", text))
    modules = set(re.findall(r"pub mod (\w+)", text))
    if crate == "run":
        return names.difference(SHARED), modules.difference(SHARED)
    return names, modules


def is_public(path, name, names, modules):
    return name in names or path.stem in modules or not modules.isdisjoint(path.parts)


def type_of(line):
    """The type or trait that an `impl` or `trait` line is of."""
    words = re.findall(r"\w+", re.sub(r"<.*?>", "", line))
    if "trait" in words:
        return words[words.index("trait") + 1]
    return words[words.index("for") + 1] if "for" in words else words[1]


def clauses_from(lines, number):
    """The lines of a signature and its clauses, up to the body."""
    clauses = []
    for line in lines[number:]:
        if line.strip() in ("{", "}", "{}") or re.match(r"\s*(pub )?fn |\s*///", line):
            break
        clauses.append(line)
    return "\n".join(clauses)


def public_clauses(crate):
    """The clauses of a crate's public functions, with the lines of their files."""
    names, modules = exported(crate)
    for path in sorted((crate_folder(crate) / "src").rglob("*.rt")):
        lines = path.read_text().split("\n")
        inside, inherent = None, False
        for number, line in enumerate(lines):
            if re.match(r"(pub )?(impl|trait)\b", line):
                inside = type_of(line)
                inherent = "trait " not in line and " for " not in line
            if line == "}":
                inside = None
            found = re.match(r"(\s*)(pub )?(?:extern \"C\" )?fn (\w+)", line)
            if found:
                name = inside if found.group(1) else found.group(3)
                # a method of a trait is public without the word
                shown = found.group(2) or (inside and not inherent)
                if shown and is_public(path, name, names, modules):
                    yield lines, clauses_from(lines, number + 1)
            elif inside and re.match(r"\s+ghost (?!use )\w+[ :=]", line):
                if is_public(path, inside, names, modules):
                    yield lines, "\n".join(lines[number : number + 6])


def rests(found, passed_on):
    """The definitions that public clauses rest on."""
    needed, waiting = set(), []
    for crate in CRATES:
        for lines, clauses in public_clauses(crate):
            names, aliases = imports_of("\n".join(lines))
            for word in TOKEN.findall(re.sub(r"//.*", "", clauses)):
                target = resolve(word, None, names, aliases, ())
                target = passed_on.get(target, target)
                if target in found:
                    waiting.append(found[target])
    while waiting:
        definition = waiting.pop()
        if definition not in needed:
            needed.add(definition)
            waiting += definition.rests_on
    return needed


def commented(path):
    """The names of a file above which a comment stands; a constructor's is that of its type."""
    lines = path.read_text().split("\n")
    names = set()
    for number, line in enumerate(lines):
        found = None if line.strip().startswith("--") else SIGNATURE.match(line)
        while found and re.match(r"\s+(?!\s|pub )", lines[number]):
            number -= 1
        above = lines[number - 1].strip()
        if found and above.startswith("--") and not above.startswith("-- ----"):
            names.add(found.group(1) or found.group(2))
    return names


def sentence(lines, comments):
    """What docs/definitions.md says of these lines of files, so many of them comments."""
    return f"{sum(lines.values()):,} lines in {len(lines)} files, {comments:,} of them comments"


def gist(path):
    """The first sentence of a file's comment."""
    comment = re.match(r"(?:-- .*\n)*", path.read_text().removeprefix(MARK))[0]
    said = " ".join(line.removeprefix("-- ") for line in comment.splitlines())
    return re.split(r"(?<=[.:]) (?=[A-Z])", said)[0]


def main():
    found, sizes, passed_on = read_specs()
    needed = rests(found, passed_on)
    if "--unused" in sys.argv:
        for (module, name), definition in sorted(found.items()):
            if definition not in needed:
                print(definition.path, name)
        return 0
    lines = defaultdict(int)
    for definition in needed:
        lines[definition.path] += definition.lines
    wrong = [path for path in sizes if path.read_text().startswith(MARK) == (path in lines)]
    for path in sorted(lines):
        print(f"{lines[path]:5} of {sizes[path]:4}  {path}: {gist(path)}")
    for crate in CRATES:
        counts = [n for path, n in lines.items() if crate_folder(crate) in path.parents]
        print(f"{sum(counts):5} in {len(counts):3} files of {crate_folder(crate).name}")
    print(f"{sum(lines.values()):5} in {len(lines)} files")
    for path in wrong:
        print(f"its first line is wrong: {path}")
    here = [(d, name) for (_, name), d in found.items() if d.path in lines]
    mixed = [(d.path, name) for d, name in here if d not in needed]
    for path, name in sorted(mixed):
        print(f"no public clause rests on {name}, which stands among others: {path}")
    has_comment = {path: commented(path) for path in lines}
    told = [(d.path, name) for d, name in here if d in needed]
    bare = [(path, name) for path, name in told if name not in has_comment[path]]
    for path, name in sorted(bare):
        print(f"public clauses rest on {name}, which has no comment: {path}")
    said = sentence(lines, sum(definition.comments for definition in needed))
    is_told = said in " ".join(PAGE.read_text().split())
    if not is_told:
        print(f"{PAGE} doesn't say: {said}")
    return 1 if wrong or mixed or bare or not is_told else 0


sys.exit(main())
