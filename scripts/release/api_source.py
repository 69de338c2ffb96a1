"""What the sources of the crates declare: public items, with their comments, signatures and
clauses, and the definitions of specs/. Read by lines, as `rt fmt` lays them out."""

import re
from dataclasses import dataclass, field
from pathlib import Path

CRATES = Path("crates")
ITEM = re.compile(r'pub (?:const |extern "C" )?(fn|struct|enum|trait|type|const|static) (\w+)')
CLAUSE = re.compile(r"(ensures|requires\*?|where|recommends)\b")
GHOST = re.compile(r"\s*ghost use Rattle\.(\w+)\.specs\.([\w.]+?)(?:\.\{(.*)\}| as (\w+));")
# In a definition's file: a name that other files can use.
DEFINED = re.compile(
    r"\s*(?:(?:abbrev|unfoldable|mutual) )*pub (?:(?:data|record|mod) )?([^\s:({]+)"
)
USED = re.compile(r"use Rattle\.(\w+)\.specs\.([\w.]+?)(?:\.\{(.*)\}| as (\S+))?$")


@dataclass
class Item:
    """A public item: its page's text comes from these."""

    kind: str
    name: str
    crate: str
    file: Path
    line: int
    docs: list
    head: list
    clauses: list = field(default_factory=list)
    body: list = field(default_factory=list)
    methods: list = field(default_factory=list)
    traits: list = field(default_factory=list)
    # Names that clauses use, by the page of their definition.
    links: dict = field(default_factory=dict)


@dataclass
class Module:
    """A file of a crate: what it declares, which modules it has, and what it hands on."""

    crate: str
    file: Path
    docs: list = field(default_factory=list)
    items: dict = field(default_factory=dict)
    modules: dict = field(default_factory=dict)
    public: set = field(default_factory=set)
    uses: list = field(default_factory=list)


def joined_statements(lines):
    """The lines of a file, those of one `use` joined: their first line's number and their text."""
    at, text = None, ""
    for number, line in enumerate(lines, 1):
        is_use = re.match(r"\s*(pub |ghost )?use ", line)
        if at is None and is_use and not line.rstrip().endswith(";"):
            at, text = number, line.rstrip()
        elif at is not None:
            text += " " + line.strip()
            if line.rstrip().endswith(";"):
                yield at, text.replace("{ ", "{").replace(", }", "}")
                at = None
        else:
            yield number, line.rstrip("\n")


def links_of(lines):
    """The names that the file's ghost imports bring, by crate, file of specs/, and name there."""
    found = {}
    for _, line in joined_statements(lines):
        match = GHOST.match(line)
        if match:
            crate, path, names, alias = match.groups()
            for name in (names or "").split(","):
                if name.strip():
                    found[name.strip()] = (crate, path, name.strip())
            if alias:
                found[alias] = (crate, path, None)
    return found


def expanded(prefix, text):
    """The paths that a tree of `use` names, each with the name that it gets."""
    text = text.strip()
    if "{" not in text:
        path, _, alias = text.partition(" as ")
        path = prefix + path.strip().split("::")
        return [(path, alias.strip() or path[-1])]
    front, _, rest = text.partition("{")
    front = [part for part in front.split("::") if part]
    depth, part, found = 0, "", []
    for letter in rest[: rest.rindex("}")] + ",":
        depth += {"{": 1, "}": -1}.get(letter, 0)
        if letter == "," and depth == 0:
            if part.strip():
                found += expanded(prefix + front, part)
            part = ""
        else:
            part += letter
    return found


class Reader:
    """Reads the items of a file from its lines."""

    def __init__(self, module):
        self.module = module
        self.lines = module.file.read_text().splitlines()
        self.links = links_of(self.lines)
        self.at = 0

    def read(self):
        docs = []
        while self.at < len(self.lines):
            line = self.lines[self.at]
            if line.startswith("///"):
                docs.append(line[4:])
            elif line.startswith("//!"):
                self.module.docs.append(line[4:])
            elif not line.startswith(("#[", "//")):
                self.statement(line, docs)
                docs = []
            self.at += 1
        return self.module

    def statement(self, line, docs):
        match = ITEM.match(line)
        if match:
            item = self.item(match, docs, "")
            self.module.items[item.name] = item
        elif re.match(r"(pub )?mod \w+;", line):
            name = re.match(r"(?:pub )?mod (\w+);", line).group(1)
            self.module.modules[name] = None
            if line.startswith("pub "):
                self.module.public.add(name)
        elif line.startswith("pub use "):
            text = line
            while not text.endswith(";"):
                self.at += 1
                text += " " + self.lines[self.at].strip()
            self.module.uses += expanded([], text[len("pub use ") : -1])
        elif re.match(r"impl\b", line):
            self.implementation(line)

    def item(self, match, docs, indent):
        """The item that begins at this line, with what stands in its braces."""
        kind, name = match.groups()
        item = Item(kind, name, self.module.crate, self.module.file, self.at + 1, docs, [])
        item.links = self.links
        self.head_of(item, indent)
        last = (item.head + item.clauses)[-1].rstrip()
        if kind in ("struct", "enum", "trait") and last.endswith("{"):
            self.body_of(item, indent)
        return item

    def head_of(self, item, indent):
        """Its signature and its clauses, up to a brace or a semicolon."""
        while True:
            line = self.lines[self.at]
            text = line.strip()
            if CLAUSE.match(text) and line.startswith(indent + "    "):
                item.clauses.append(text)
            elif item.clauses and line.startswith(indent + "     "):
                item.clauses[-1] += "\n" + line[len(indent) + 4 :]
            elif line not in (indent + "{", indent + "{}"):
                item.head.append(line[len(indent) :])
            if line in (indent + "{", indent + "{}") or self.is_last(item, text):
                return
            self.at += 1

    def is_last(self, item, text):
        """Whether its head ends with this line."""
        if not item.clauses:
            return text.endswith(("{", ";", "{}"))
        said = "".join(item.clauses)
        return text.endswith(";") and said.count("{") == said.count("}")

    def body_of(self, item, indent):
        """Fields, variants, or the methods of a trait, with their comments."""
        docs = []
        while self.lines[self.at + 1] != indent + "}":
            self.at += 1
            line = self.lines[self.at]
            text = line.strip()
            match = re.match(r"(?:final )?(fn) (\w+)", text)
            if text.startswith("///"):
                docs.append(text[4:])
            elif item.kind == "trait" and match and line.startswith(indent + "    "):
                item.methods.append(self.item(match, docs, indent + "    "))
                self.skip_body(indent + "    ")
                docs = []
            elif not text.startswith(("#[", "//", "ghost use")):
                item.body.append((docs, line[len(indent) + 4 :]))
                docs = []
        self.at += 1

    def skip_body(self, indent):
        """To the end of the braces of a function, if they have begun."""
        if self.lines[self.at].rstrip().endswith((";", "{}")):
            return
        while self.lines[self.at] != indent + "}":
            self.at += 1

    def implementation(self, line):
        """The public methods of a type, and the traits that it has."""
        head = line
        while not head.endswith("{"):
            self.at += 1
            head += " " + self.lines[self.at].strip()
        match = re.match(r"impl(?:<.*?>)? (?:(.+?) for )?(\w+)", head)
        owner = self.module.items.get(match.group(2)) if match else None
        docs = []
        while self.lines[self.at] != "}" and not head.endswith("{}"):
            text = self.lines[self.at].strip()
            method = re.match(r"pub (?:const )?(fn) (\w+)", text)
            if text.startswith("///"):
                docs.append(text[4:])
            elif method and owner is not None:
                owner.methods.append(self.item(method, docs, "    "))
                self.skip_body("    ")
                docs = []
            elif not text.startswith(("#[", "//")):
                docs = []
            self.at += 1
        if owner is not None and match.group(1):
            owner.traits.append(match.group(1))


def module_of(crate, file):
    """The module of a file, with those inside it."""
    module = Reader(Module(crate, file)).read()
    folder = file.parent if file.stem in ("lib", "mod") else file.with_suffix("")
    for name in module.modules:
        for inner in (folder / f"{name}.rt", folder / name / "mod.rt"):
            if inner.exists():
                module.modules[name] = module_of(crate, inner)
    return module


def crates():
    """The libraries of crates.txt, in its order, by name; those of tests aside."""
    found = {}
    for line in Path("crates.txt").read_text().splitlines():
        name = (line.partition(":")[0].split() or [""])[0]
        file = CRATES / name / "src/lib.rt"
        is_library = file.exists() and not name.endswith("_tests")
        if not line.startswith("#") and is_library:
            found[name] = module_of(name, file)
    return found


def item_at(all_crates, root, module, path):
    """The item or module that a path of a `pub use` leads to."""
    first, rest = path[0], path[1:]
    if first in all_crates:
        return item_in(all_crates, all_crates[first], rest)
    if first in ("crate", "self", "super"):
        return item_in(all_crates, root if first == "crate" else module, rest)
    return item_in(all_crates, module, path)


def item_in(all_crates, module, path):
    """What the path leads to in the module."""
    for at, name in enumerate(path):
        if module.modules.get(name) is not None and at + 1 < len(path):
            module = module.modules[name]
            continue
        if name in module.items:
            return module.items[name]
        for used, given in module.uses:
            if given == name:
                root = all_crates[module.crate]
                return item_at(all_crates, root, module, used + path[at + 1 :])
        return module.modules.get(name)
    return module


def api_of(all_crates, module, prefix=""):
    """The items of a module and of those inside it, by the paths that callers write."""
    found = {}
    for name, item in module.items.items():
        found[prefix + name] = item
    for path, name in module.uses:
        item = item_at(all_crates, all_crates[module.crate], module, path)
        if isinstance(item, Item):
            found[prefix + name] = item
        elif isinstance(item, Module):
            found |= api_of(all_crates, item, f"{prefix}{name}::")
    for name in sorted(module.public):
        if module.modules[name] is not None:
            found |= api_of(all_crates, module.modules[name], f"{prefix}{name}::")
    return found


def definition_files():
    """Each file of a crate's specs/: its crate, its module path, and its lines."""
    for crate in sorted(CRATES.iterdir()):
        for file in sorted((crate / "specs").rglob("*.antt")):
            if file.stem != "Lib":
                path = ".".join(file.relative_to(crate / "specs").with_suffix("").parts)
                yield crate.name, path, file.read_text().splitlines()


def defined_in(lines):
    """The names that a file of specs/ defines for others, by their lines; no fields of records."""
    found, in_record = {}, False
    for number, line in enumerate(lines):
        if line and not line.startswith(" "):
            in_record = line.startswith("pub record")
        match = DEFINED.match(line)
        if match and not (in_record and line.startswith(" ")):
            found[number] = match.group(1)
    return found


def names_used(lines):
    """The names that the imports of a definition's file bring, as `links_of` has them."""
    found = {}
    for line in lines:
        match = USED.match(line)
        if match and match.group(3):
            for name in match.group(3).split(","):
                found[name.strip()] = (match.group(1), match.group(2), name.strip())
    return found
