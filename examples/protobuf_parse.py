"""protobuf_parse from Python, by ctypes: `compiled` gives the bytes of a FileDescriptorSet.

    import protobuf_parse
    library = protobuf_parse.Library("./libprotobuf_parse.so")
    files = library.read(["shop/order.proto"], ["schemas"])
    made = library.compiled(["shop/order.proto"], files)
    found = descriptor_pb2.FileDescriptorSet.FromString(made)
"""

import ctypes
from pathlib import Path
from typing import NamedTuple

DONE, REFUSED, NO_ROOM, NO_MEMORY = range(4)
SOURCE_INFO = 1


class _Text(ctypes.Structure):
    _fields_ = [("bytes", ctypes.c_char_p), ("len", ctypes.c_size_t)]


class _File(ctypes.Structure):
    _fields_ = [
        ("path", ctypes.c_char_p),
        ("path_len", ctypes.c_size_t),
        ("content", ctypes.c_char_p),
        ("content_len", ctypes.c_size_t),
    ]


class _Span(ctypes.Structure):
    _fields_ = [("at", ctypes.c_size_t), ("len", ctypes.c_size_t)]


class _Fault(ctypes.Structure):
    _fields_ = [
        ("file", _Span),
        ("line", ctypes.c_uint32),
        ("column", ctypes.c_uint32),
        ("severity", ctypes.c_uint32),
        ("code", _Span),
        ("message", _Span),
        ("help", _Span),
    ]


class _Sizes(ctypes.Structure):
    _fields_ = [(name, ctypes.c_size_t) for name in ("set", "texts", "faults")]


class Fault(NamedTuple):
    """What is told: line and column are None where no place is known."""

    file: str
    line: int | None
    column: int | None
    severity: str
    code: str
    message: str
    help: str


class Refused(Exception):
    """The files have errors, which `faults` tells."""

    def __init__(self, faults):
        super().__init__("\n".join(f"{it.file}:{it.line}: {it.message}" for it in faults))
        self.faults = faults


def _texts(words):
    given = [word.encode() for word in words]
    return (_Text * len(given))(*[_Text(it, len(it)) for it in given]), len(given)


def _files(files):
    given = [(path.encode(), content) for path, content in files.items()]
    rows = [_File(path, len(path), content, len(content)) for path, content in given]
    return (_File * len(rows))(*rows), len(rows)


class Library:
    """The shared library at this path."""

    def __init__(self, path):
        library = ctypes.CDLL(path)
        self._compile = library.protobuf_parse_compile
        self._imports = library.protobuf_parse_imports

    def compiled(self, inputs, files, source_info=False):
        """The set of the inputs and all that they reach, by proto paths, among these files.

        Raises Refused where they have errors, and MemoryError.
        """
        status, made, faults = self.told(inputs, files, source_info)
        if status == REFUSED:
            raise Refused(faults)
        return made

    def told(self, inputs, files, source_info=False):
        """The status, the bytes of the set, and what is told."""
        given = [_files(files), _texts(inputs)]
        words = [it for rows, count in given for it in (rows, ctypes.c_size_t(count))]
        words.append(ctypes.c_uint32(SOURCE_INFO if source_info else 0))
        sizes, status = _Sizes(1 << 16, 1 << 12, 16), NO_ROOM
        while status == NO_ROOM:
            made = ctypes.create_string_buffer(max(sizes.set, 1))
            texts = ctypes.create_string_buffer(max(sizes.texts, 1))
            faults = (_Fault * max(sizes.faults, 1))()
            rooms = [made, sizes.set, texts, sizes.texts, faults, sizes.faults]
            rooms[1::2] = [ctypes.c_size_t(it) for it in rooms[1::2]]
            status = self._compile(*words, *rooms, ctypes.byref(sizes))
        if status == NO_MEMORY:
            raise MemoryError
        return status, made.raw[: sizes.set], _told(texts.raw, faults[: sizes.faults])

    def imports(self, text):
        """The proto paths that the text of a file imports; none where it has a fault."""
        sizes, status = _Sizes(0, 1 << 12, 16), NO_ROOM
        while status == NO_ROOM:
            texts = ctypes.create_string_buffer(max(sizes.texts, 1))
            spans = (_Span * max(sizes.faults, 1))()
            rooms = [texts, ctypes.c_size_t(sizes.texts), spans, ctypes.c_size_t(sizes.faults)]
            status = self._imports(text, ctypes.c_size_t(len(text)), *rooms, ctypes.byref(sizes))
        if status == NO_MEMORY:
            raise MemoryError
        found = spans[: sizes.faults] if status == DONE else []
        return [texts.raw[it.at : it.at + it.len].decode() for it in found]

    def read(self, inputs, folders):
        """The files of the inputs and all that they import, where one of the folders has them."""
        files, wanted = {}, list(inputs)
        for path in wanted:
            places = [place for it in folders if (place := Path(it) / path).is_file()]
            if places and path not in files:
                files[path] = places[0].read_bytes()
                wanted += self.imports(files[path])
        return files


def _told(texts, faults):
    def text(span):
        return texts[span.at : span.at + span.len].decode()

    return [
        Fault(
            text(it.file),
            it.line or None,
            it.column or None,
            "error" if it.severity == 1 else "warning",
            text(it.code),
            text(it.message),
            text(it.help),
        )
        for it in faults
    ]
