"""Schemas with mistakes, made at random: good schemas of all constructs, and in them one to five
mistakes, each of a kind with a name. `one(seed)` and the like answer `(kinds, files)`, where files
are texts by their paths and `main.proto` is the one to ask for."""

import random
import re

TOKEN = re.compile(
    r'"(?:\\.|[^"\\])*"|[A-Za-z_][A-Za-z0-9_]*|[0-9][A-Za-z0-9_.]*|//[^\n]*\n|\s+|.', re.S
)

COMMON = """syntax = "proto2";
package common;
message Shared {
  optional int32 a = 1;
  extensions 100 to 199;
}
enum Color {
  RED = 0;
  BLUE = 1;
}
"""

OPTIONS = """syntax = "proto2";
package opts;
import "google/protobuf/descriptor.proto";
message Note {
  optional string text = 1;
  optional int32 level = 2;
  repeated int32 many = 3;
  optional Note inner = 4;
  required bool sure = 5;
}
message Tag {
  optional string text = 1;
  repeated int32 many = 2;
  extensions 10 to 20;
}
extend google.protobuf.FileOptions { optional string file_note = 50001; }
extend google.protobuf.MessageOptions {
  optional int32 weight = 50001;
  optional Tag tag = 50002;
  repeated int32 marks = 50003;
}
extend google.protobuf.FieldOptions { optional string hint = 50001; repeated Tag tags = 50002; }
extend google.protobuf.EnumValueOptions { optional bool old = 50001; }
extend Tag { optional int32 extra = 10; }
"""

PROTO2 = """syntax = "proto2";
package shop.v1;
import "common.proto";
import "opts.proto";
option java_package = "org.shop";
option (opts.file_note) = "shop";

message Order {
  option (opts.weight) = 3;
  option (opts.tag) = { text: "x" many: 1 many: 2 };
  required int64 id = 1;
  optional string name = 2 [default = "none", deprecated = true];
  repeated int32 counts = 3 [packed = true];
  optional common.Shared shared = 4;
  optional common.Color color = 5 [default = RED];
  map<string, Item> items = 6;
  oneof payment {
    string card = 7;
    int32 cash = 8;
  }
  optional group Extra = 9 {
    optional int32 x = 1;
    optional string y = 2;
  }
  message Item {
    optional string title = 1 [(opts.hint) = "short"];
    optional double price = 2;
    enum Size {
      SMALL = 1;
      LARGE = 2 [(opts.old) = true];
    }
    optional Size size = 3 [default = LARGE];
  }
  reserved 20, 30 to 40;
  reserved "old_name", "older_name";
  extensions 100 to 150;
}

enum State {
  NEW = 0;
  PAID = 1;
  SENT = 2;
  reserved 7 to 9;
  reserved "LOST";
}

extend Order {
  optional int32 rank = 100;
  repeated State states = 101;
}

extend common.Shared {
  optional bytes blob = 100;
}

service Shop {
  rpc Get(Order) returns (Order.Item);
  rpc Put(stream Order) returns (stream common.Shared) {
    option deprecated = true;
  }
}
"""

PROTO3 = """syntax = "proto3";
package store;
import "common3.proto";
import public "opts.proto";
option optimize_for = SPEED;
option (opts.file_note) = "store";

message Shelf {
  option (opts.weight) = 4;
  int64 id = 1;
  optional string name = 2;
  repeated sint32 counts = 3;
  common3.Shared shared = 4 [(opts.hint) = "one"];
  common3.Color color = 5;
  map<int32, Book> books = 6;
  oneof place {
    string room = 7;
    fixed32 row = 8;
  }
  message Book {
    string title = 1 [json_name = "bookTitle"];
    float price = 2 [deprecated = true];
    Kind kind = 3;
  }
  reserved 20, 30 to 40;
  reserved "old_name";
}

enum Kind {
  KIND_NONE = 0;
  KIND_NOVEL = 1;
  KIND_POEM = 2;
  reserved 7 to 9;
  reserved "KIND_LOST";
}

message Answer {
  repeated Shelf shelves = 1;
  bool more = 2;
}

service Store {
  rpc List(Shelf) returns (stream Answer);
  rpc Add(Shelf.Book) returns (Answer) {
    option idempotency_level = IDEMPOTENT;
  }
}
"""

COMMON3 = """syntax = "proto3";
package common3;
message Shared { int32 a = 1; }
enum Color { RED = 0; BLUE = 1; }
"""

SIDE = {"common.proto": COMMON, "opts.proto": OPTIONS, "common3.proto": COMMON3}


def tokens(text):
    return TOKEN.findall(text)


def solid(pieces):
    """The indexes of pieces that are tokens, behind the syntax statement."""
    found = [i for i, piece in enumerate(pieces) if piece.strip() and not piece.startswith("//")]
    return found[4:]


def top(*snippets):
    """A mistake that is one of these declarations of a file."""
    def make(rng, text):
        places = [m.start() for m in re.finditer(r"^(message|enum|service)", text, re.M)]
        if not places:
            return None
        at = rng.choice(places)
        return text[:at] + rng.choice(snippets).replace("@", str(rng.randrange(10, 90))) + "\n" + text[at:]
    return make


def member(*snippets):
    """A mistake that is one of these statements of a message."""
    def make(rng, text):
        places = [m.end() for m in re.finditer(r"^message \w+ \{\n", text, re.M)]
        if not places:
            return None
        at = rng.choice(places)
        return text[:at] + "  " + rng.choice(snippets) + "\n" + text[at:]
    return make


def swap(*pairs):
    """A mistake that puts one text in place of another one, where that stands."""
    def make(rng, text):
        usable = [(a, b) for a, b in pairs if a in text]
        if not usable:
            return None
        a, b = rng.choice(usable)
        at = rng.choice([m.start() for m in re.finditer(re.escape(a), text)])
        return text[:at] + b + text[at + len(a):]
    return make


def left_out(rng, text):
    pieces = tokens(text)
    i = rng.choice(solid(pieces))
    return "".join(pieces[:i] + [" "] + pieces[i + 1:])


def doubled(rng, text):
    pieces = tokens(text)
    i = rng.choice(solid(pieces))
    return "".join(pieces[:i] + [pieces[i], " ", pieces[i]] + pieces[i + 1:])


OTHERS = ["{", "}", ";", "=", "(", ")", "[", "]", "<", ",", ".", "x", "1", '"s"', "message", "-1",
          "0", "option", "extend", "int32", "99999999999", "1.5", "enum", "to", "max", "&", "'a"]


def replaced(rng, text):
    pieces = tokens(text)
    i = rng.choice(solid(pieces))
    other = rng.choice([x for x in OTHERS if x != pieces[i]])
    return "".join(pieces[:i] + [other] + pieces[i + 1:])


def moved(rng, text):
    pieces = tokens(text)
    places = solid(pieces)
    i, j = rng.choice(places), rng.choice(places)
    if i == j:
        return None
    piece = pieces[i]
    pieces[i] = " "
    pieces[j] = pieces[j] + " " + piece
    return "".join(pieces)


P2, P3, BOTH = "2", "3", "23"

KINDS = {
    "C1": (BOTH, top("message T@ {\n  repeated int32 a = 1;\n  repeated int32 b = 1;\n}")),
    "C1 of extensions": (P2, top(
        "extend Order { optional int32 ra@ = 120; }\nextend Order { optional int32 rb@ = 120; }")),
    "C1 of other files": (P2, top(
        "extend opts.Tag { optional int32 other@ = 10; }")),
    "C2": (BOTH, member("repeated int32 t = 0;")),
    "C3": (BOTH, member("repeated int32 t = 536870912;", "repeated int32 t = 600000000;")),
    "C4": (BOTH, member("repeated int32 t = 19000;", "repeated int32 t = 19999;")),
    "C5": (P3, top(
        "message T@ {\n  int32 a = 1 [json_name = \"x\"];\n  int32 b = 2 [json_name = \"x\"];\n}",
        "message T@ {\n  int32 a_b = 1;\n  int32 aB = 2;\n}")),
    "C6": (P2, top("message T@ {\n  optional int32 a_b = 1;\n  optional int32 aB = 2;\n}")),
    "C7": (BOTH, top("enum T@ {\n  T@A = 0;\n  T@B = 1;\n  T@C = 1;\n}")),
    "C8": (P3, top("enum T@ {\n  T@A = 1;\n  T@B = 0;\n}", "enum T@ {\n  T@A = 2;\n}")),
    "C9": (BOTH, top("enum T@ {\n}", "enum T@ {\n  option deprecated = true;\n}")),
    "C10": (BOTH, top("enum T@ {\n  option allow_alias = false;\n  T@A = 0;\n}")),
    "C11": (P3, member("required int32 t = 50;")),
    "C12": (P3, member("repeated group Tt = 50 {\n    int32 x = 1;\n  }")),
    "C13": (P3, member("int32 t = 50 [default = 3];")),
    "C14": (P3, member("extensions 50 to 60;", "extensions 50;")),
    "C15": (P3, top("extend Shelf {\n  int32 t@ = 50;\n}")),
    "C15 of options": (P3, top(
        "extend google.protobuf.ExtensionRangeOptions {\n  int32 t@ = 50001;\n}",
        "extend google.protobuf.MessageOptions {\n  int32 t@ = 50011;\n}")),
    "C16": (P3, member("option message_set_wire_format = true;")),
    "C17": (P2, top("message T@ {\n  option message_set_wire_format = true;\n  optional int32 a = 1;\n  extensions 4 to max;\n}")),
    "C18": (P2, top("extend Order {\n  required int32 t@ = 130;\n}")),
    "C19": (BOTH, member("repeated string t = 50 [packed = true];")),
    "C20": (BOTH, member("repeated string t = 50 [lazy = true];")),
    "C21": (BOTH, member("repeated string t = 50 [jstype = JS_STRING];")),
    "C22": (P2, member("repeated int32 t = 50 [default = 1];")),
    "C23": (P2, member("optional Order t = 50 [default = 1];", "optional Order t = 50 [default = x];")),
    "C24": (P2, member("optional bool t = 50 [default = 1];", "optional bool t = 50 [default = yes];")),
    "C25": (BOTH, member("map<bytes, int32> t = 50;", "map<double, int32> t = 50;")),
    "C25 of a type": (P3, member("map<Kind, int32> t = 50;", "map<Shelf, int32> t = 50;")),
    "C26": (P2, member("extensions 0 to 3;", "reserved 0;")),
    "C26 of reserved": (P3, member("reserved 0 to 3;", "reserved 0;")),
    "C27": (P2, member("extensions 60 to 53;")),
    "C27 of an enum": (BOTH, top("enum T@ {\n  T@A = 0;\n  reserved 5 to 3;\n}")),
    "C28": (P2, member("extensions 600 to 536870912;")),
    "C29": (BOTH, member("repeated int32 t = 20;", "repeated int32 t = 50;\n  reserved 50;")),
    "C29 of an enum": (BOTH, top("enum T@ {\n  T@A = 0;\n  T@B = 5;\n  reserved 5;\n}")),
    "C30": (BOTH, member("repeated int32 old_name = 50;", "repeated int32 t = 50;\n  reserved \"t\";")),
    "C30 of an enum": (BOTH, top("enum T@ {\n  T@A = 0;\n  reserved \"T@A\";\n}")),
    "C31": (P2, member("extensions 50 to 60;\n  optional int32 t = 55;")),
    "C32": (P2, top("extend Order {\n  optional int32 t@ = 160;\n}", "extend Order.Item {\n  optional int32 t@ = 5;\n}")),
    "C33": (P2, top("message T@ {\n  option message_set_wire_format = true;\n  extensions 4 to max;\n}\nextend T@ {\n  optional int32 x@ = 5;\n}")),
    "C32 of a message set": (P2, top("message T@ {\n  option message_set_wire_format = true;\n  extensions 4 to max;\n}\nextend T@ {\n  optional Order x@ = 2000000000;\n}")),
    "C34": (P3, swap(("common3.Color color", "E color"))),
    "C35": (P2, member("optional State t = 50 [default = LOST];", "optional State t = 50 [default = 1];")),
    "C36": (P2, member("map<int32, common.Color> t = 50;\n  map<int32, First> u = 51;\n  enum First { F1 = 1; }")),
    "C37": (BOTH, swap(("import \"common.proto\";", "import \"common.proto\";\nimport \"common.proto\";"), ("import public \"opts.proto\";", "import public \"opts.proto\";\nimport \"opts.proto\";"))),
    "C38": (BOTH, member("reserved \"tt\", \"tt\";", "reserved \"tt\";\n  reserved \"tt\";")),
    "C38 of an enum": (BOTH, top("enum T@ {\n  T@A = 0;\n  reserved \"U\";\n  reserved \"U\";\n}")),
    "C39": (BOTH, top("message T@ {\n  reserved 50 to 60;\n  reserved 55 to 70;\n}", "message T@ {\n  reserved 50 to 60;\n  reserved 40 to 52;\n}", "message T@ {\n  reserved 50 to 60,\n    50;\n}", "message T@ {\n  reserved 5 to 3;\n  reserved 1 to 10;\n}")),
    "C39 of extensions": (P2, top("message T@ {\n  extensions 50 to 60;\n  extensions 55 to 70;\n}", "message T@ {\n  extensions 50 to 60;\n  extensions 40 to 52;\n}", "message T@ {\n  reserved 50 to 60;\n  extensions 40 to 52;\n}", "message T@ {\n  extensions 50 to 60;\n  reserved 40 to 52;\n}")),
    "C39 of an enum": (BOTH, top("enum T@ {\n  T@A = 0;\n  reserved 50 to 60;\n  reserved 40 to 52;\n}", "enum T@ {\n  T@A = 0;\n  reserved 40 to 52;\n  reserved 50 to 60;\n}")),
    "C40": (BOTH, top("enum T@ {\n  option allow_alias = true;\n  T@A = 0;\n}")),
    "C42": (P2, member("optional int32 t = 50 [default = x];", "optional int32 t = 50 [default = \"1\"];", "optional double t = 50 [default = x];")),
    "C43": (P2, member("optional int32 t = 50 [default = 2147483648];", "optional uint32 t = 50 [default = 4294967296];")),
    "C44": (P2, member("optional uint32 t = 50 [default = -1];", "optional fixed64 t = 50 [default = -1];")),
    "C45": (BOTH, top("enum T@ {\n  ROUGH = 0;\n}\nenum U@ {\n  ROUGH = 0;\n}", "message T@ {\n}\nmessage T@ {\n}", "message T@ {\n}\nenum T@ {\n  T@A = 0;\n}")),
    "C45 of a member": (BOTH, member("repeated int32 t = 50;\n  repeated int32 t = 51;", "repeated int32 t = 50;\n  message t {}")),
    "C45 of methods": (BOTH, top("service T@ {\n  rpc F(google.protobuf.FileOptions) returns (google.protobuf.FileOptions);\n  rpc F(google.protobuf.FileOptions) returns (google.protobuf.FileOptions);\n}")),
    "C46": (P3, top("enum T@ {\n  A@ = 0;\n  T@_A@ = 1;\n}")),
    "C47": (P3, member("int32 a_b_ = 50;\n  int32 ab = 51;")),
    "C48": (BOTH, top("message T@ {\n}")),
    "type of a method": (BOTH, top("service T@ {\n  rpc F(State) returns (State);\n}", "service T@ {\n  rpc F(Kind) returns (Kind);\n}")),
    "extendee": (P2, top("extend State {\n  optional int32 t@ = 5;\n}")),
    "nested deep": (BOTH, top("".join(f"message N{i} {{ " for i in range(33)) + "}" * 33)),
    "required in a constant": (BOTH, swap(("[deprecated = true]", "[(opts.noted) = { text: \"x\" }]"))),
    "map_entry": (BOTH, top("message T@ {\n  message AEntry {\n    option map_entry = true;\n    repeated int32 key = 1;\n  }\n  repeated AEntry a = 1;\n}", "message T@ {\n  option map_entry = true;\n}")),
    "json_name of an extension": (P2, top("extend Order {\n  optional int32 t@ = 130 [json_name = \"x\"];\n}")),
    "inner scope": (P2, top("message T@ {\n  message common {}\n  optional common.Shared a = 1;\n}")),
    "twice in a constant": (BOTH, swap(("(opts.weight) = 3;", "(opts.tag) = { text: \"a\" text: \"b\" };"), ("(opts.weight) = 4;", "(opts.tag) = { text: \"a\" text: \"b\" };"))),
    "list of one": (BOTH, swap(("(opts.weight) = 3;", "(opts.tag) = { text: [\"a\"] };"), ("(opts.weight) = 4;", "(opts.tag) = { text: [\"a\"] };"))),
    "list as a value": (BOTH, swap(("(opts.weight) = 3;", "(opts.marks) = [1, 2];"), ("(opts.weight) = 4;", "(opts.marks) = [1, 2];"))),
    "plus": (BOTH, swap(("(opts.weight) = 3;", "(opts.weight) = +3;"), ("(opts.weight) = 4;", "(opts.weight) = +4;"))),
    "dotted extension": (BOTH, swap(("(opts.weight) = 3;", "(opts.tag) = { [.opts.extra]: 1 };"), ("(opts.weight) = 4;", "(opts.tag) = { [.opts.extra]: 1 };"))),
    "option twice": (BOTH, swap(("(opts.weight) = 3;", "(opts.weight) = 3;\n  option (opts.weight) = 5;"), ("(opts.weight) = 4;", "(opts.weight) = 4;\n  option (opts.weight) = 5;"), ("option java_package = \"org.shop\";", "option java_package = \"org.shop\";\noption java_package = \"org.shop2\";"), ("option optimize_for = SPEED;", "option optimize_for = SPEED;\noption optimize_for = SPEED;"), ("deprecated = true]", "deprecated = true,\n    deprecated = true]"))),
    "default twice": (P2, swap(("[default = RED]", "[default = RED,\n    default = BLUE]"))),
    "json_name twice": (P3, swap(("[json_name = \"bookTitle\"]", "[json_name = \"bookTitle\",\n    json_name = \"b\"]"))),
    "second package": (BOTH, top("package other@;")),
    "label before a map": (BOTH, swap(("map<", "repeated map<"))),
    "empty extend": (P2, top("extend Order {\n}", "extend Nowhere {\n}")),
    "no semicolon": (BOTH, swap(("NEW = 0;", "NEW = 0"), ("KIND_NONE = 0;", "KIND_NONE = 0"), ("extensions 100 to 150;", "extensions 100 to 150"))),
    "stream alone": (BOTH, swap(("rpc Get(Order) returns (Order.Item);", "stream Get(Order, Order);"), ("rpc List(Shelf) returns (stream Answer);", "stream List(Shelf, Answer);"))),
    "E1": (BOTH, swap(("import \"common.proto\";", "import \"nowhere.proto\";"), ("import \"common3.proto\";", "import \"nowhere.proto\";"))),
    "E3": (BOTH, member("repeated Nowhere t = 50;", "repeated shop.v9.Order t = 50;")),
    "E3 in a method": (BOTH, top("service T@ {\n  rpc F(Nowhere) returns (Nowhere);\n}")),
    "E3 of an extendee": (P2, top("extend Nowhere {\n  optional int32 t@ = 5;\n}")),
    "E11": (BOTH, member("option nowhere = true;", "option (opts.nowhere) = 1;")),
    "E of a value": (BOTH, swap(("(opts.weight) = 3;", "(opts.weight) = \"x\";"), ("(opts.weight) = 4;", "(opts.weight) = \"x\";"), ("(opts.file_note) = \"shop\"", "(opts.file_note) = 3"), ("(opts.file_note) = \"store\"", "(opts.file_note) = 3"))),
    "E of a constant": (BOTH, swap(("(opts.weight) = 3;", "(opts.tag) = { nowhere: 1 };"), ("(opts.weight) = 4;", "(opts.tag) = { nowhere: 1 };"))),
    "E of a built-in value": (BOTH, swap(("deprecated = true", "deprecated = 1"), ("deprecated = true", "deprecated = yes"), ("optimize_for = SPEED", "optimize_for = FAST"))),
    "no syntax": (P2, swap(("syntax = \"proto2\";\n", "\n"))),
    "bad string": (BOTH, swap(("\"shop\"", "\"sh\\xop\""), ("\"store\"", "\"st\nore\""))),
    "bad number": (BOTH, swap((" = 2;", " = 2a;"), (" = 2;", " = 08;"), (" = 1;", " = 0x;"))),
    "no label": (P2, swap(("optional double price", "double price"))),
    "label in a oneof": (BOTH, swap(("    string card", "    optional string card"), ("    string room", "    repeated string room"))),
    "field in extend of group": (P3, top("extend google.protobuf.FieldOptions {\n  map<int32, int32> t@ = 50020;\n}")),
    "map in a oneof": (BOTH, swap(("    string card = 7;", "    map<int32, int32> card = 7;"), ("    string room = 7;", "    map<int32, int32> room = 7;"))),
    "edition": (BOTH, swap(("syntax = \"proto2\";", "edition = \"2023\";"), ("syntax = \"proto3\";", "edition = \"2023\";"))),
    "syntax of 4": (BOTH, swap(("syntax = \"proto2\";", "syntax = \"proto4\";"), ("syntax = \"proto3\";", "syntax = \"proto4\";"))),
    "late syntax": (BOTH, top("syntax = \"proto2\";", "syntax = \"proto3\";")),
    "late import": (BOTH, top("import \"nowhere.proto\";")),
    "left out": (BOTH, left_out),
    "doubled": (BOTH, doubled),
    "replaced": (BOTH, replaced),
    "moved": (BOTH, moved),
}
OFTEN = {"left out": 12, "doubled": 12, "replaced": 16, "moved": 12}
NAMES = sorted(KINDS, key=lambda kind: (kind in OFTEN, kind))
DESCRIPTOR = 'import "google/protobuf/descriptor.proto";\n'


def mistaken(rng, kinds):
    """A text with these mistakes, as far as there is room for them."""
    level = rng.choice("23")
    usable = [k for k in kinds if level in KINDS[k][0]]
    if len(usable) < len(kinds):
        level = "2" if level == "3" else "3"
        usable = [k for k in kinds if level in KINDS[k][0]]
    text = PROTO2 if level == "2" else PROTO3
    done = []
    for kind in usable:
        if "google.protobuf" in text or kind in ("C15 of options", "C45 of methods", "field in extend of group"):
            if DESCRIPTOR not in text:
                text = text.replace("import ", DESCRIPTOR + "import ", 1)
        made = KINDS[kind][1](rng, text)
        if made is not None and made != text:
            text = made
            done.append(kind)
    return done, text


def kind_at(index):
    """The kind of the mistake of a seed: each in turn, the frequent ones more often."""
    wheel = [k for k in NAMES for _ in range(OFTEN.get(k, 1))]
    return wheel[index % len(wheel)]


def one(index, seed=0):
    rng = random.Random(f"one {seed} {index}")
    done, text = mistaken(rng, [kind_at(index)])
    return done, {**SIDE, "main.proto": text}


def some(index, seed=0):
    """Two to five mistakes in one text."""
    rng = random.Random(f"some {seed} {index}")
    kinds = [rng.choice(NAMES) for _ in range(rng.randrange(2, 6))]
    done, text = mistaken(rng, kinds)
    return done, {**SIDE, "main.proto": text}


def behind(index, seed=0):
    """One mistake in a file that the one that is asked for imports."""
    rng = random.Random(f"behind {seed} {index}")
    done, text = mistaken(rng, [kind_at(index)])
    public = rng.choice(["", "public "])
    main = f'syntax = "proto3";\nimport {public}"middle.proto";\nmessage Main {{\n}}\n'
    return done, {**SIDE, "middle.proto": text, "main.proto": main}
