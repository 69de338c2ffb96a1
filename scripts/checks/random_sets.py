"""Random small sets of files in which much is wrong, and what stands where in their texts: for
random_checks.py."""

import collections
import contextlib

INCLUDES = ["one", "two"]
LIBRARY = "google/protobuf/descriptor.proto"
MESSAGES = ".google.protobuf.MessageOptions"

# A line that leaves a text without a tree, with the column and the code that are told.
TORN = [
    ("message {", 9, "S8"),
    ("}", 1, "S8"),
    ("message B { int32 a = 1; }", 13, "S12"),
    ("message B { optional int32 a = 0x; }", 32, "S4"),
    ("message B { optional int32 a = 99999999999; }", 32, "S5"),
    ('import "abc;', 8, "S3"),
    ('import "../a";', 8, "S19"),
    ("/* open", 1, "S2"),
    ("option java_package = ;", 23, "S9"),
    ("message B { optional group item = 1 {} }", 28, "S13"),
]

# Options of a file, and of a field of a type, of which something is told: the code, and the text.
FILE_OPTIONS = [
    ("E11", 'java_pakage = "x"'),
    ("E13", "deprecated = 5"),
    ("E9", 'java_package = "\\q"'),
    ("E12", 'uninterpreted_option = "x"'),
]
FIELD_OPTIONS = [
    ("int32", ("E13", "deprecated = 5")),
    ("int32", ("E10", "json_name = 5")),
    ("string", ("E8", "default = 5")),
    ("string", ("E11", "defalt = 5")),
]


# ---- texts, and what stands where in them


class Writer:
    """A text that is written piece by piece."""

    def __init__(self):
        self.pieces = []
        self.line = self.col = 1

    def put(self, piece):
        """Where the piece begins."""
        place = self.line, self.col
        self.pieces.append(piece)
        before, feed, after = piece.rpartition("\n")
        self.line += piece.count("\n")
        self.col = len(after) + 1 if feed else self.col + len(piece)
        return place


class Outline:
    """What a file declares and names, each with its place."""

    def __init__(self, source):
        self.scope = f".{source.package}" if source.package else ""
        self.imports = []  # place, word, path
        self.types = []  # place, full name: also those behind maps
        self.known = set()  # the full names that a type can have
        self.extensions = []  # place, full name, extendee as written, kind
        self.uses = []  # place, scope, name as written
        self.plain = []  # place, code
        self.customs = []  # place, scope, name as written, value
        self.groups = collections.defaultdict(list)  # of a body and a kind: place, name
        self.bodies = [0]  # the numbers of those that are open, and how many there were
        self.body_count = 1
        self.writer = Writer()
        if source.package:
            self.writer.put(f"package {source.package};\n")
        for i, statement in enumerate(source.statements):
            self.statement(statement, self.scope)
            self.writer.put(" " if i % 3 == 1 else "\n")
        self.damage = None
        if source.torn:
            text, col, code = source.torn
            line, _ = self.writer.put(f"\n{text}")
            self.damage = line + 1, col, code
        text = "".join(self.writer.pieces).encode()
        if source.is_bytes:
            text += b"\n// \xff"
            self.damage = self.writer.line + 1, 4, "L1"
        self.text = text

    def statement(self, statement, scope):
        kind, *given = statement
        getattr(self, f"put_{kind}")(scope, *given)

    @contextlib.contextmanager
    def body(self):
        self.bodies.append(self.body_count)
        self.body_count += 1
        yield
        self.bodies.pop()
        self.writer.put(" }")

    def declare(self, kind, scope, place, name):
        self.groups[self.bodies[-1], kind].append((place, name))
        if kind in ("message", "enum"):
            self.types.append((place, f"{scope}.{name}"))

    def put_import(self, scope, word, path):
        self.imports.append((self.writer.put(f'import {word}"{path}";'), word, path))

    def put_message(self, scope, name, items):
        place = self.writer.put(f"message {name} {{")
        self.declare("message", scope, place, name)
        self.known.add(f"{scope}.{name}")
        with self.body():
            for item in items:
                self.writer.put("\n  ")
                self.statement(item, f"{scope}.{name}")

    def put_enum(self, scope, name, values):
        place = self.writer.put(f"enum {name} {{")
        self.declare("enum", scope, place, name)
        self.known.add(f"{scope}.{name}")
        with self.body():
            for number, value in enumerate(values):
                self.writer.put(" ")
                self.declare("value", scope, self.writer.put(f"{value} = {number};"), value)

    def put_field(self, scope, type_, name, number, option):
        place = self.writer.put(f"optional {type_} {name} = {number}")
        self.declare("field", scope, place, name)
        self.use(place, scope, type_)
        if option:
            self.writer.put(" [")
            code, text = option
            self.plain.append((self.writer.put(text), code))
            self.writer.put("]")
        self.writer.put(";")

    def put_map(self, scope, name, number):
        place = self.writer.put(f"map<int32, int32> {name} = {number};")
        self.declare("field", scope, place, name)
        self.declare("message", scope, place, f"{name.capitalize()}Entry")

    def put_extend(self, scope, extendee, fields):
        place = self.writer.put(f"extend {extendee} {{")
        self.use(place, scope, extendee)
        for number, (type_, name) in enumerate(fields):
            self.writer.put(" ")
            place = self.writer.put(f"optional {type_} {name} = {50000 + number};")
            self.use(place, scope, type_)
            self.declare("extension", scope, place, name)
            self.extensions.append((place, f"{scope}.{name}", extendee, type_))
        self.writer.put(" }")

    def put_service(self, scope, name, methods):
        place = self.writer.put(f"service {name} {{")
        self.declare("service", scope, place, name)
        with self.body():
            for method, given, back in methods:
                self.writer.put("\n  ")
                place = self.writer.put(f"rpc {method} ({given}) returns (stream {back});")
                self.declare("method", scope, place, method)
                for type_ in dict.fromkeys([given, back]):
                    self.use(place, f"{scope}.{name}", type_)

    def put_range(self, scope):
        self.plain.append((self.writer.put("reserved 7 to 2147483647;"), "E7"))

    def put_option(self, scope, code, text):
        self.writer.put("option ")
        self.plain.append((self.writer.put(text), code))
        self.writer.put(";")

    def put_custom(self, scope, name, value):
        self.writer.put("option ")
        around = scope.rpartition(".")[0]
        written = value if isinstance(value, int) else f'"{value}"'
        self.customs.append((self.writer.put(f"({name}) = {written};"), around, name, value))

    def use(self, place, scope, name):
        if name not in ("int32", "string"):
            self.uses.append((place, scope, name))

    def names(self, of_extensions):
        """Places and full names, in the order of the text."""
        if of_extensions:
            return [(place, name) for place, name, _, _ in self.extensions]
        return self.types

    def repeats(self):
        """E1, at each declaration whose name stands before it in its body."""
        for declared in self.groups.values():
            before = set()
            for place, name in declared:
                if name in before:
                    yield place, "E1", name
                before.add(name)


class Source:
    """What is put into a file."""

    def __init__(self, folder, package, statements):
        self.folder = folder
        self.package = package
        self.statements = statements
        self.torn = None
        self.is_bytes = False
        self.is_loop = False  # a link to itself, which can't be read


class Case:
    """A set of files: those that a resolver finds, by their proto paths; others that lie where the
    first ones hide them, and FILEs."""

    def __init__(self):
        self.files = {}
        self.shadowed = []
        self.folders = []
        self.outside = []
        self.words = []

    def path_of(self, path):
        return f"{self.files[path].folder}/{path}"


def kind_of(case, word):
    """The proto path of a FILE, or the code of what is told of it as a whole."""
    if word in case.outside:
        return "L3"
    if word in case.folders:
        return "L4"
    if word in case.shadowed:
        return "L6"
    if "/../" in word:
        return "L11"
    for path in case.files:
        if word == case.path_of(path):
            return path
    return word


# ---- sets


FAULTS = """
lost loop torn bytes cycle shared again lost_name far plain custom lost_file folder outside dots
shadow
""".split()
# Without these custom options are looked at in most files.
UNSETTLING = "lost loop torn bytes cycle shared again lost_name far plain".split()


class Maker:
    """Makes a set at random. How often there is a fault of each kind differs from set to set."""

    def __init__(self, rng):
        self.rng = rng
        rates = [0, 0, 0, 0.05, 0.15, 0.4]
        self.rates = {kind: rng.choice(rates) for kind in FAULTS}
        if rng.random() < 0.4:
            self.rates.update(dict.fromkeys(UNSETTLING, 0))
        self.case = Case()
        self.names = collections.defaultdict(list)  # by paths: package, name
        self.extensions = ["nope"]

    def hits(self, kind):
        return self.rng.random() < self.rates[kind]

    def made(self):
        count = self.rng.choice([1, 2, 3, 4, 5, 6, 8, 12])
        paths = [self.rng.choice(["", "sub/"]) + f"f{i}.proto" for i in range(count)]
        if self.rng.random() < 0.04:
            self.put_chain()
        for i, path in enumerate(paths):
            self.put_file(paths, i)
        if any(self.rates[it] for it in ("loop",)):
            self.case.files["loop.proto"] = Source("one", "", [])
            self.case.files["loop.proto"].is_loop = True
        self.put_words(paths)
        return self.case

    def put_chain(self):
        """A chain of files that is nearly too long, or is too long."""
        length = self.rng.randrange(95, 230)
        for i in range(length):
            statements = []
            if i + 1 < length:
                statements.append(("import", "", f"chain/c{i + 1}.proto"))
            if self.hits("far"):
                statements.append(("message", f"C{i}", [("field", "Lost", "a", 1, None)]))
            self.case.files[f"chain/c{i}.proto"] = Source("one", "", statements)

    def put_file(self, paths, i):
        package = self.rng.choice(["", "", "p", "q"])
        source = Source(self.rng.choice(INCLUDES), package, [])
        path = paths[i]
        self.case.files[path] = source
        statements = self.imports(paths, i)
        near = [path, *(it for _, _, it in statements)]
        kinds = ["message", "enum", "extend", "service"]
        for kind in self.rng.choices(kinds, [6, 1, 2, 1], k=self.few(6)):
            statements.append(getattr(self, f"a_{kind}")(path, package, near))
        if self.hits("plain"):
            statements.append(("option", *self.rng.choice(FILE_OPTIONS)))
        if self.rng.random() < 0.3:
            self.rng.shuffle(statements)
        source.statements = statements
        if self.hits("torn"):
            source.torn = self.rng.choice(TORN)
        elif self.hits("bytes"):
            source.is_bytes = True

    def few(self, most):
        return self.rng.randrange(most)

    def imports(self, paths, i):
        found = []
        for _ in range(self.few(4)):
            if self.hits("cycle"):
                found.append(self.rng.choice(paths))
            elif i:
                found.append(paths[self.rng.randrange(max(0, i - 4), i)])
        if self.hits("lost"):
            found.append(self.rng.choice(["lost.proto", "sub/lost.proto"]))
        if self.hits("loop"):
            found.append("loop.proto")
        if self.rng.random() < 0.5:
            found.append(LIBRARY)
        chain = [it for it in self.case.files if it.startswith("chain/")]
        if chain and self.rng.random() < 0.5:
            found.append(self.rng.choice(chain[:5] + chain[-100:]))
        self.rng.shuffle(found)
        words = ["", "", "", "public ", "public ", "weak "]
        return [("import", self.rng.choice(words), path) for path in found]

    def name(self, path, package, letter):
        """A name of its own, or one that other files may have."""
        if self.hits("shared"):
            name = self.rng.choice(["Item", "Order"])
        elif self.hits("again") and self.names[path]:
            name = self.rng.choice(self.names[path])[1]
        else:
            name = f"{letter}{len(self.names[path])}of{list(self.case.files).index(path)}"
        self.names[path].append((package, name))
        return name

    def type_from(self, package, near):
        """A type that is mostly seen."""
        if self.rng.random() < 0.5:
            return self.rng.choice(["int32", "string"])
        if self.hits("lost_name"):
            return self.rng.choice(["Lost", ".Lost", ".p.Lost", "Item"])
        paths = list(self.names) if self.hits("far") else near
        names = [it for path in paths for it in self.names.get(path, [])]
        if not names:
            return "int32"
        of, name = self.rng.choice(names)
        if of in ("", package) and self.rng.random() < 0.7:
            return name
        return f".{of}.{name}" if of else f".{name}"

    def a_message(self, path, package, near, depth=0):
        name = self.name(path, package, "M") if not depth else self.rng.choice(["N", "AEntry", "O"])
        items = []
        for number in range(1, 1 + self.few(6)):
            items.append(self.item(path, package, near, number, depth))
        return ("message", name, items)

    def item(self, path, package, near, number, depth):
        field = self.rng.choice("ab") if self.hits("again") else f"f{number}"
        draw = self.rng.random()
        if draw < 0.1 and depth < 2:
            return self.a_message(path, package, near, depth + 1)
        if draw < 0.15:
            return ("map", field, number)
        if draw < 0.2:
            return self.an_extend(package, near)
        if self.hits("plain"):
            type_, option = self.rng.choice(FIELD_OPTIONS)
            return ("range",) if draw < 0.4 else ("field", type_, field, number, option)
        if draw < 0.5 and (self.rates["custom"] or depth):
            return self.custom()
        return ("field", self.type_from(package, near), field, number, None)

    def custom(self):
        name = "nope" if self.hits("custom") else self.rng.choice(self.extensions)
        value = self.rng.choice([1, "x"])
        if self.hits("custom"):
            value = 9999999999
        return ("custom", name, value)

    def a_extend(self, path, package, near):
        return self.an_extend(package, near)

    def an_extend(self, package, near):
        of_options = LIBRARY in near or self.hits("far")
        extendee = MESSAGES if of_options else self.type_from(package, near)
        if extendee in ("int32", "string"):
            extendee = self.rng.choice([MESSAGES, ".google.protobuf.FieldOptions"])
        fields = []
        for _ in range(1 + self.few(3)):
            name = "shared" if self.hits("shared") else f"x{len(self.extensions)}"
            self.extensions += [name, f".{package}.{name}" if package else f".{name}"]
            fields.append((self.rng.choice(["int32", "string"]), name))
        if self.hits("far"):
            fields.append((self.type_from(package, near), f"y{len(self.extensions)}"))
        return ("extend", extendee, fields)

    def a_enum(self, path, package, near):
        name = self.name(path, package, "E")
        front = name if package else f"{name}{len(self.names[path])}"
        values = [f"{front}_{i}" for i in range(1 + self.few(3))]
        if self.hits("again"):
            values.append(values[0])
        return ("enum", name, values)

    def a_service(self, path, package, near):
        name = "Shop" if self.hits("again") else f"S{len(self.names[path])}of{len(self.names)}"
        methods = []
        for i in range(self.few(4)):
            types = [self.type_from(package, near) for _ in range(2)]
            types = [".Nowhere" if it in ("int32", "string") else it for it in types]
            methods.append(("Get" if self.hits("again") else f"Get{i}", *types))
        if not self.hits("far"):
            methods = [it for it in methods if ".Nowhere" not in it]
        return ("service", name, methods)

    # -- FILEs

    def put_words(self, paths):
        case = self.case
        chosen = self.rng.sample(paths, min(len(paths), 1 + self.few(4)))
        chain = [it for it in case.files if it.startswith("chain/")]
        if chain:
            chosen += self.rng.sample(chain, self.few(4)) + chain[:1]
        case.words = [self.spelled(path) for path in chosen]
        if self.hits("lost_file"):
            case.words += ["lost.proto", "one/nowhere.proto"][: 1 + self.few(2)]
        if self.hits("folder"):
            case.folders.append("one/folder.proto")
        if self.hits("outside"):
            case.outside.append("out/x.proto")
        if self.hits("shadow"):
            hidden = [path for path in paths if case.files[path].folder == "one"]
            case.shadowed += [f"two/{path}" for path in hidden[:2]]
        case.words += case.folders + case.outside + case.shadowed
        if self.hits("dots"):
            case.words.append("one/../" + case.path_of(paths[0]))
        self.rng.shuffle(case.words)

    def spelled(self, path):
        return path if self.rng.random() < 0.5 else self.case.path_of(path)
