"""What a program asks of the machine that runs it, read from its file: the shared libraries, and
the version of the C library."""

import re
import struct

NEEDED, STRINGS, VERSIONS, VERSION_COUNT = 1, 5, 0x6FFFFFFE, 0x6FFFFFFF
# What every Linux with glibc has: its C library, and its loader.
OF_GLIBC = ("libc.so.6", "ld-linux-x86-64.so.2")


class NotElf(Exception):
    """Why a file is no program for Linux on x86-64."""


class Elf:
    """A program's file: its loaded parts and its dynamic section."""

    def __init__(self, data):
        """Takes the bytes of the file. NotElf says why they are no such program."""
        self.data = data
        if data[:6] != b"\x7fELF\x02\x01" or len(data) < 64:
            raise NotElf("it is no ELF file of 64 bits")
        if struct.unpack_from("<H", data, 18)[0] != 62:
            raise NotElf("it is not for x86-64")
        try:
            self.parts, self.dynamic = self.headers()
        except struct.error:
            raise NotElf("its headers end beyond the file") from None

    def headers(self):
        """The loaded parts, each as its address, its place in the file and its size, and the
        entries of the dynamic section, each as its tag and its value."""
        start, size, count = struct.unpack_from("<Q14xHH", self.data, 32)
        parts, dynamic = [], []
        for at in range(start, start + size * count, size):
            kind, place, address, length = struct.unpack_from("<I4xQQ8xQ", self.data, at)
            if kind == 1:
                parts.append((address, place, length))
            elif kind == 2:
                entries = range(place, place + length - 15, 16)
                dynamic += [struct.unpack_from("<QQ", self.data, it) for it in entries]
        ends = [number for number, (tag, _) in enumerate(dynamic) if tag == 0]
        return parts, dynamic[: ends[0]] if ends else dynamic

    def value(self, wanted):
        """The value of the first dynamic entry of this tag, or None."""
        return next((value for tag, value in self.dynamic if tag == wanted), None)

    def place(self, address):
        """Where in the file an address of the program lies."""
        for start, place, length in self.parts:
            if start <= address < start + length:
                return place + address - start
        raise NotElf(f"nothing is loaded at its address {address:#x}")

    def text(self, number):
        """The text that lies so far in the table of names."""
        start = self.place(self.value(STRINGS)) + number
        return self.data[start : self.data.index(b"\0", start)].decode()

    def libraries(self):
        """The names of the shared libraries that the program needs."""
        return [self.text(value) for tag, value in self.dynamic if tag == NEEDED]

    def versions(self):
        """The versions of symbols that it wants, as `GLIBC_2.34`."""
        if self.value(VERSIONS) is None:
            return []
        found, at = [], self.place(self.value(VERSIONS))
        for _ in range(self.value(VERSION_COUNT) or 0):
            count, first, following = struct.unpack_from("<2xH4xII", self.data, at)
            inner = at + first
            for _ in range(count):
                name, step = struct.unpack_from("<8xII", self.data, inner)
                found.append(self.text(name))
                inner += step
            at += following
        return found


def beyond_libc(data):
    """Which shared libraries a program needs beside the C library and its loader."""
    return [name for name in Elf(data).libraries() if name not in OF_GLIBC]


def glibc_version(data):
    """The oldest glibc that a program runs with, as `2.34`, or None where it says none."""
    found = [re.fullmatch(r"GLIBC_(\d+)\.(\d+)(?:\.\d+)?", it) for it in Elf(data).versions()]
    numbers = [(int(it.group(1)), int(it.group(2))) for it in found if it]
    return "{}.{}".format(*max(numbers)) if numbers else None
