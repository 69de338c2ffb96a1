"""What the command must tell of a set of files: for random_checks.py.

It loads and judges the files by the rules of docs/run.md, from what was put into them and not from
their texts."""

import collections

from random_sets import LIBRARY, MESSAGES, Outline, kind_of

MOST = 100
OPTIONS_OF = {
    f".google.protobuf.{it}Options" for it in "File Message Field Enum Service Method".split()
}


class Load:
    """The files that FILEs reach, each once and behind its imports, and what is told on the way."""

    def __init__(self, case, words):
        self.case = case
        self.told = set()  # file, line, column, code, of what
        self.known = {}  # the fault of a path, or the files of the longest chain from it
        self.loaded = {}  # outlines by paths, in the order of loading
        self.cut = collections.defaultdict(set)  # places of statements that aren't followed
        for word in words:
            self.input(word)

    def tell(self, file, place, code, what):
        line, col = place or (None, None)
        self.told.add((file, line, col, code, what))

    def input(self, word):
        found = kind_of(self.case, word)
        if found in ("L3", "L4", "L6", "L11"):
            self.tell(word, None, found, word)
        else:
            self.meet(found, (), word, None)

    def leave(self, by, place, code, path):
        """What asks for the path isn't followed: an input has no place."""
        if code in ("L2", "L5", "L7", "L8"):
            self.tell(by if place is None else self.case.path_of(by), place, code, path)
        else:
            line, col, code = self.known[path][1]
            self.tell(self.case.path_of(path), (line, col), code, path)
        if place is not None:
            self.cut[by].add(place)
        return 0

    def meet(self, path, chain, by, place):
        """How many files the longest chain from the path has, as far as it is followed."""
        room = MOST - len(chain)
        if path in chain:
            return self.leave(by, place, "L7", path)
        if path not in self.known and room:
            self.read(path, chain)
        if path not in self.known:
            return self.leave(by, place, "L8", path)
        kind, it = self.known[path]
        if kind == "unread":
            return self.leave(by, place, it if isinstance(it, str) else None, path)
        return it if it <= room else self.leave(by, place, "L8", path)

    def read(self, path, chain):
        source = self.case.files.get(path)
        if path == LIBRARY:
            self.loaded[path] = None
            self.known[path] = "loaded", 1
            return
        if source is None or source.is_loop:
            self.known[path] = "unread", "L5" if source else "L2"
            return
        outline = Outline(source)
        if outline.damage:
            self.known[path] = "unread", outline.damage
            return
        below = [
            self.meet(other, chain + (path,), path, place) for place, _, other in outline.imports
        ]
        self.loaded[path] = outline
        self.known[path] = "loaded", 1 + max(below, default=0)


class Judged:
    """What is told of a set, once it is loaded."""

    def __init__(self, load):
        self.load = load
        self.told = set(load.told)
        self.reached = {}
        self.handed_on = {}
        self.seen = {}
        self.own = {}  # what is wrong in a file, its custom options left out
        self.brought = {}  # E5 and E6
        self.twice = collections.defaultdict(set)  # names that a file reaches more than once
        for path, outline in load.loaded.items():
            self.see(path, outline)
            if outline is None:
                self.own[path] = self.brought[path] = []
                continue
            self.brought[path] = [*self.names_brought(path, False), *self.names_brought(path, True)]
            self.own[path] = list(self.own_faults(path))
            self.report(path)

    def imports(self, path):
        """The imports of a file that are followed."""
        outline = self.load.loaded[path]
        for place, word, other in outline.imports if outline else []:
            if place not in self.load.cut[path]:
                yield place, word, other

    def see(self, path, outline):
        reached, handed_on, seen = {path}, {path}, {path}
        for _, word, other in self.imports(path):
            reached |= self.reached[other]
            seen |= self.handed_on[other]
            if word == "public ":
                handed_on |= self.handed_on[other]
        self.reached[path], self.handed_on[path], self.seen[path] = reached, handed_on, seen

    def outlines(self, paths):
        return [it for path in paths if (it := self.load.loaded[path])]

    def names_brought(self, path, of_extensions):
        """E5, or E6 of extensions: names that what the file reaches declares more than once, where
        no other file that it reaches does so already."""
        names = collections.Counter()
        for outline in self.outlines(self.reached[path]):
            names.update(name for _, name in outline.names(of_extensions))
        twice = {name for name, count in names.items() if count > 1}
        self.twice[path, of_extensions] = twice
        below = [self.twice[it, of_extensions] for it in self.reached[path] if it != path]
        for name in twice.difference(*below):
            place = self.place_of(path, name, of_extensions)
            yield place, "E6" if of_extensions else "E5", name

    def declares(self, path, name, of_extensions):
        outline = self.load.loaded[path]
        return bool(outline) and name in [it for _, it in outline.names(of_extensions)]

    def place_of(self, path, name, of_extensions):
        """The last declaration in the file, or else the import with which the last of the files is
        reached that declare it."""
        outline = self.load.loaded[path]
        own = [place for place, it in outline.names(of_extensions) if it == name]
        if own:
            return own[-1]
        missing = {it for it in self.reached[path] if self.declares(it, name, of_extensions)}
        for place, _, other in self.imports(path):
            missing -= self.reached[other]
            if not missing:
                return place
        raise AssertionError("no import reaches them")

    def is_known(self, path, name):
        outlines = self.outlines(self.seen[path])
        if LIBRARY in self.seen[path] and name in OPTIONS_OF:
            return True
        return any(name in it.known for it in outlines)

    def own_faults(self, path):
        outline = self.load.loaded[path]
        for place, code in outline.plain:
            yield place, code, ""
        yield from outline.repeats()
        for place, scope, name in outline.uses:
            if not any(self.is_known(path, it) for it in candidates(scope, name)):
                yield place, "E2" if name.startswith(".") else "E3", name

    def is_troubled(self, path):
        return bool(self.load.cut[path] or self.brought[path] or self.own[path])

    def misses_names(self, path):
        return bool(self.load.cut[path]) or any(map(self.loses_public, self.seen[path]))

    def loses_public(self, path):
        outline = self.load.loaded[path]
        return bool(outline) and any(
            word == "public " and place in self.load.cut[path]
            for place, word, _ in outline.imports
        )

    def report(self, path):
        faults = list(self.brought[path])
        places = [place for place, _, _ in faults]
        misses = self.misses_names(path)
        for place, code, name in self.own[path]:
            is_hidden = code in ("E2", "E3") and misses or code == "E1" and place in places
            if not is_hidden:
                faults.append((place, code, name))
        if not any(map(self.is_troubled, self.reached[path])):
            faults += self.custom_faults(path)
        for place, code, name in faults:
            line, col = place
            self.told.add((self.load.case.path_of(path), line, col, code, name))

    def custom_faults(self, path):
        for place, scope, name, value in self.load.loaded[path].customs:
            code = self.custom_fault(path, scope, name, value)
            if code:
                yield place, code, name

    def custom_fault(self, path, scope, name, value):
        for full in candidates(scope, name):
            for outline in self.outlines(self.seen[path]):
                for _, it, extendee, kind in outline.extensions:
                    if it == full:
                        return wrong_value(extendee, kind, value)
        return "E14"


def candidates(scope, name):
    """The full names that a name may mean from a scope, the innermost first."""
    if name.startswith("."):
        yield name
        return
    while scope:
        yield f"{scope}.{name}"
        scope = scope.rpartition(".")[0]
    yield f".{name}"


def wrong_value(extendee, kind, value):
    """What is wrong where this extension is set in the options of a message."""
    if extendee != MESSAGES:
        return "E15"
    if isinstance(value, int) != (kind == "int32"):
        return "E19"
    if isinstance(value, int) and not -(2**31) <= value < 2**31:
        return "E20"
    return None


def model(case, words):
    """What must be told of the set."""
    return Judged(Load(case, words)).told
