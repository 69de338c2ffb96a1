"""Random schemas that `protoc` takes, with blanks and comments between their tokens: for
compare_source_info.py."""

SCALARS = "int32 int64 uint32 string bytes bool double float fixed32 sint64".split()
TYPES = ["Base", ". pk . Base", "pk . Base", "pk . Base . In", "En"]
BLANKS = [" ", "\n", "\n\n", "\t", "  ", " // a\n", "\n// b\n", "\n  // c\n", "/* d */"]
BLANKS += ["/* e */\n"]
BLANKS += ["\n/* f */\n", "/*\n * g\n  *h\n\t i*/", "/**/", "//\n", "\r\n", "// \xe9\r\n"]
BLANKS += ["\n// j\n// k\n", "/** l **/\n", "\n\n// m\n\n", "\v\f"]
CUSTOM = [
    ("FileOptions", "repeated", "int32", "ri"),
    ("FileOptions", "optional", "D", "dd"),
    ("FieldOptions", "optional", "int32", "fi"),
    ("FieldOptions", "optional", "D", "fd"),
    ("EnumValueOptions", "optional", "int32", "vi"),
    ("MessageOptions", "repeated", "int32", "mi"),
    ("OneofOptions", "repeated", "int32", "oi"),
]
# Options as statements, by what they are options of. Those of custom names may stand twice.
STATEMENTS = {
    "file": ['java_package = "x" "y"', "( ri ) = 4", "( dd ) . k = { n : 1 }"],
    "message": ["deprecated = true", "( mi ) = 1"],
    "enum": ["deprecated = true"],
    "service": ["deprecated = true"],
    "method": ["deprecated = true"],
    "oneof": ["( oi ) = 5"],
}
FIELD_ITEMS = ["deprecated = true", "( fi ) = 3", "( . pk . fd ) . n = - 3"]
FIELD_ITEMS += ["( fd ) . k = { n : 1 , k { n : 2 } ; k : [ { n : 4 } , { } ] }"]
VALUE_ITEMS = ["deprecated = true", "( vi ) = 7"]


class Schema:
    """The tokens of a file, one after another."""

    def __init__(self, random, syntax):
        self.random, self.syntax = random, syntax
        self.tokens, self.names, self.extensions = [], 0, 1000

    def put(self, tokens):
        self.tokens += tokens.split()

    def chance(self, part):
        return self.random.random() < part

    def name(self, front):
        self.names += 1
        return f"{front}{self.names}"

    def empty(self):
        while self.chance(0.12):
            self.put(";")

    def body(self, part, statement, first=""):
        """Statements in braces, with empty ones between them."""
        self.put("{ " + first)
        self.empty()
        while self.chance(part):
            statement()
            self.empty()
        self.put("}")

    def option(self, owner, seen):
        """An option as a statement; one without a custom name stands once."""
        text = self.random.choice(STATEMENTS[owner])
        if text not in seen or text.startswith("("):
            seen.add(text)
            self.put(f"option {text} ;")

    def items(self, texts):
        """Options in brackets, or nothing."""
        chosen = [text for text in texts if self.chance(0.3)]
        self.random.shuffle(chosen)
        if chosen:
            self.put("[ " + " , ".join(chosen) + " ]")

    def type_(self):
        """The type's first word, where it is a scalar."""
        if self.chance(0.6):
            word = self.random.choice(SCALARS)
            self.put(word)
            return word
        self.put(self.random.choice(TYPES))
        return None

    def label(self, where):
        if where == "oneof":
            return None
        if self.syntax == "proto2":
            labels = ["optional", "repeated"] + ["required"] * (where == "message")
        else:
            labels = [None, None, "optional", "repeated"]
        return self.random.choice(labels)

    def field_items(self, where, label, word):
        texts = list(FIELD_ITEMS)
        if where != "extend":
            strings = f'"{self.name("j")}"' + ' "z"' * self.chance(0.3)
            texts.append(f"json_name = {strings}")
        if self.syntax == "proto2" and label == "optional":
            if word in ("int32", "int64", "sint64"):
                texts.append(self.random.choice(["default = 5", "default = - 7"]))
            if word in ("string", "bytes"):
                texts.append("default = \"a\" 'b'")
        return texts

    def field(self, numbers, where):
        number = next(numbers)
        if where == "message" and self.chance(0.15):
            self.put(f"map < {self.random.choice(['string', 'int32'])} ,")
            self.type_()
            self.put(f"> {self.name('f')} = {number}")
            self.items(self.field_items(where, None, None))
            return self.put(";")
        label = self.label(where)
        if label:
            self.put(label)
        if self.syntax == "proto2" and self.chance(0.2):
            self.put(f"group {self.name('Gr')} = {number}")
            inner = iter(range(1, 1000))
            return self.body(0.5, lambda: self.field(inner, "message"))
        word = self.type_()
        self.put(f"{self.name('f')} = {hex(number) if self.chance(0.1) else number}")
        self.items(self.field_items(where, label, word))
        return self.put(";")

    def ranges(self, first):
        return self.random.choice(
            [f"{first}", f"{first} to {first + 3}", f"{first} , {first + 4} to {first + 5}"]
        )

    def reserved(self, first):
        if self.chance(0.6):
            return self.put(f"reserved {self.ranges(first)} ;")
        return self.put(f"reserved \"{self.name('Q')}\" , \"q\" '{self.name('w')}' ;")

    def value(self, number):
        self.put(f"{self.name('V')} = {'- ' * self.chance(0.3)}{number}")
        self.items(VALUE_ITEMS)
        self.put(";")

    def enum(self):
        numbers, seen = iter(range(1, 1000)), set()

        def statement():
            number = next(numbers)
            part = self.random.random()
            if part < 0.6:
                self.value(number)
            elif part < 0.75:
                self.option("enum", seen)
            else:
                self.reserved(100 + number * 10)

        self.put(f"enum {self.name('E')}")
        self.body(0.7, statement, f"{self.name('V')} = 0 ;")

    def extend(self):
        self.put("extend")
        self.put(self.random.choice(TYPES[:3]))
        numbers = iter(range(self.extensions, self.extensions + 100))
        self.put("{")
        self.field(numbers, "extend")
        while self.chance(0.5):
            self.field(numbers, "extend")
        self.put("}")
        self.extensions += 100

    def oneof(self, numbers):
        seen = set()
        self.put(f"oneof {self.name('o')} {{")
        self.field(numbers, "oneof")
        while self.chance(0.5):
            if self.chance(0.2):
                self.option("oneof", seen)
            else:
                self.field(numbers, "oneof")
        self.put("}")

    def message(self, depth):
        numbers, free, seen = iter(range(1, 1000)), iter(range(2000, 9000, 10)), set()

        def statement():
            part = self.random.random()
            if part < 0.45:
                self.field(numbers, "message")
            elif part < 0.53 and depth < 3:
                self.message(depth + 1)
            elif part < 0.6:
                self.enum()
            elif part < 0.68:
                self.oneof(numbers)
            elif part < 0.75 and self.syntax == "proto2":
                self.extend()
            elif part < 0.8 and self.syntax == "proto2":
                self.put(f"extensions {self.ranges(next(free))} ;")
            elif part < 0.9:
                self.reserved(next(free))
            else:
                self.option("message", seen)

        self.put(f"message {self.name('M')}")
        self.body(0.8, statement)

    def method(self):
        streams = ["stream " * self.chance(0.3) for _ in range(2)]
        self.put(f"rpc {self.name('R')} ( {streams[0]}. pk . Base ) returns ( {streams[1]}Base )")
        if self.chance(0.5):
            return self.put(";")
        seen = set()
        return self.body(0.4, lambda: self.option("method", seen))

    def service(self):
        seen = set()

        def statement():
            if self.chance(0.2):
                self.option("service", seen)
            else:
                self.method()

        self.put(f"service {self.name('S')}")
        self.body(0.7, statement)

    def front(self):
        """The version, imports, the package, and what types and options name."""
        if self.syntax == "proto3" or self.chance(0.5):
            self.put(f'syntax = "{self.syntax[:3]}" \'{self.syntax[3:]}\' ;')
        self.put('import "google/protobuf/descriptor.proto" ;')
        if self.chance(0.5):
            self.put('import public "google/protobuf/" "any.proto" ;')
        if self.chance(0.3):
            self.put('import weak "google/protobuf/empty.proto" ;')
        extensions = "extensions 1000 to max ; " * (self.syntax == "proto2")
        self.put(f"package pk ; message Base {{ message In {{ }} {extensions}}}")
        self.put("enum En { ZERO = 0 ; }")
        for number, (extendee, label, type_, name) in enumerate(CUSTOM, 50001):
            self.put(f"extend google . protobuf . {extendee} {{ {label} {type_} {name}")
            self.put(f"= {number} ; }}")
        self.put("message D { optional int32 n = 1 ; repeated D k = 2 ; }")

    def file(self):
        seen = set()
        self.front()
        while self.chance(0.85):
            part = self.random.random()
            if part < 0.45:
                self.message(0)
            elif part < 0.55:
                self.enum()
            elif part < 0.65 and self.syntax == "proto2":
                self.extend()
            elif part < 0.8:
                self.service()
            else:
                self.option("file", seen)
            self.empty()
        return self.tokens


def blanks(random, needed, part):
    """What stands before a token, with comments or not."""
    if not random.random() < part:
        return " " if needed or random.random() < 0.5 else ""
    return "".join(random.choice(BLANKS) for _ in range(random.randint(1, 4)))


def text(random):
    """The text of a random schema."""
    tokens = Schema(random, random.choice(["proto2", "proto2", "proto3"])).file()
    part = random.choice([0.02, 0.1, 0.25])
    pieces, before = ["\ufeff" if random.random() < 0.1 else ""], ""
    for token in tokens:
        needed = bool(before) and (before[-1] + token[0]).replace("_", "a").isalnum()
        often = 3 if before in ("", ";", "{", "}") else 1
        pieces += [blanks(random, needed, part * often), token]
        before = token
    return "".join(pieces) + blanks(random, False, 0.6)
