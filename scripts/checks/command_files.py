#!/usr/bin/env python3
"""Tries the command on files, pipes, links, modes and outputs that fail: docs/testing.md.

    scripts/checks/command_files.py [--program PROGRAM] [--quick] [NAME..]

Without --program it has `rt` build the command first. Each try stands in a folder of its own; the
status, standard output and standard error are compared as a whole, and so is what lies in the
folder then: each name with its kind, mode and bytes. NAMEs run those tries alone whose names have
one of them. --quick leaves out those that take gigabytes of memory or many runs. Some want to run
as root, which hands them over to `nobody` where that matters; those that are left out are told.
The status is 0 if all went as wanted."""

import argparse
import contextlib
import os
import random
import re
import resource
import shutil
import signal
import stat
import subprocess
import sys
import tempfile
import threading
import time
import traceback

TOP = os.path.normpath(os.path.join(os.path.dirname(os.path.abspath(__file__)), "../.."))
CRATE = f"{TOP}/crates/protobuf_parse_cli"
TEXT = b'syntax = "proto3";\n\npackage shop;\n\nmessage Item {\n  string title = 1;\n}\n'
# What `protoc -o` of 3.21.12 writes for it as item.proto.
SET = bytes.fromhex(
    "0a380a0a6974656d2e70726f746f120473686f70221c0a044974656d12140a057469746c65180120012809520574"
    "69746c65620670726f746f33"
)
LISTING = (
    b"file item.proto\n  syntax proto3\n  package shop\n  message Item\n"
    b'    field optional string title = 1 json "title"\n'
)
WARNED = b'import "item.proto";\n'
WARNING = b"warned.proto:1:1: warning: the import is unused: `item.proto` [C48]\n"
FAULTY = b"message Item {\n"
FAULT = b"faulty.proto:2:1: error: unexpected end of file, expected a statement or `}` [S8]\n"
OLD = b"what was there before\n"
LONG = b"what was there before, and is longer than the set that is written over it\n" * 4
NOBODY = {"user": 65534, "group": 65534, "extra_groups": []}
TRIES = []


class LeftOut(Exception):
    """Why a try can't be made here."""


def a_try(function):
    TRIES.append(function)
    return function


def quoted(path, why):
    return f"protobuf_parse_cli: error: could not write `{path}`: {why}\n".encode()


class Folder:
    """The folder of a try, which is the current one while it runs."""

    def __init__(self, program):
        self.program = program
        self.put("item.proto", TEXT)

    def put(self, path, content=OLD, mode=0o644):
        if os.path.dirname(path):
            os.makedirs(os.path.dirname(path), exist_ok=True)
        with open(path, "wb") as file:
            file.write(content)
        os.chmod(path, mode)

    def run(self, *words, **how):
        """Runs the command. That texts have no `syntax` statement is not what the tries are about."""
        how.setdefault("stdin", subprocess.DEVNULL)
        how.setdefault("timeout", 600)
        return subprocess.run([self.program, "--rules=T19=off", *words], **how)

    def expect(self, *words, status=0, out=b"", err=b"", **how):
        """Runs the command, and compares all that it says."""
        for stream in ("stdout", "stderr"):
            how.setdefault(stream, subprocess.PIPE)
        ended = self.run(*words, **how)
        said = (ended.returncode, ended.stdout or b"", ended.stderr or b"")
        same((status, out, err), said, " ".join(map(repr, words)))

    def has(self, **wanted):
        """Compares what lies in the folder with what is wanted, for each name its bytes, or its
        mode and its bytes, or a kind. Names that the command is given are left out."""
        found = {}
        for name in sorted(os.listdir(b".")):
            found[os.fsdecode(name)] = name
        for given in ("item.proto", "warned.proto", "faulty.proto"):
            found.pop(given, None)
        same(sorted(wanted), sorted(found), "the names in the folder")
        for name, it in wanted.items():
            mode = os.lstat(found[name]).st_mode
            if it == "link":
                same(True, stat.S_ISLNK(mode), f"{name} is a link")
            elif it == "folder":
                same(True, stat.S_ISDIR(mode), f"{name} is a folder")
            elif isinstance(it, tuple):
                same(it, (stat.S_IMODE(mode), content(found[name])), name)
            else:
                same(it, content(found[name]), name)


def same(wanted, found, what):
    if wanted != found:
        cut = lambda it: repr(it)[:2000]
        raise AssertionError(f"{what[:200]}\n  wanted {cut(wanted)}\n  found  {cut(found)}")


def content(path):
    with open(path, "rb") as file:
        return file.read()


@contextlib.contextmanager
def umask(mask):
    old = os.umask(mask)
    try:
        yield
    finally:
        os.umask(old)


@contextlib.contextmanager
def pipe_with(text):
    """The end of a pipe that gives this text."""
    read, write = os.pipe()
    feeder = threading.Thread(target=lambda: (os.write(write, text), os.close(write)))
    feeder.start()
    try:
        yield read
    finally:
        os.close(read)
        feeder.join()


def bounded(size):
    """What lets a run write files of at most so many bytes, so that a write is refused in the
    middle as on a full disk."""

    def limit():
        signal.signal(signal.SIGXFSZ, signal.SIG_IGN)
        resource.setrlimit(resource.RLIMIT_FSIZE, (size, size))

    return limit


def messages(count):
    """A text that has so many, so that its set is long."""
    return b"".join(b"message M%d { optional int32 a = 1; }\n" % i for i in range(count))


def as_nobody():
    if os.geteuid():
        raise LeftOut("it wants root")
    return NOBODY


# ---- a file that is written


@a_try
def a_new_file_has_the_usual_mode(it):
    for mask, mode in ((0o022, 0o644), (0o077, 0o600), (0o002, 0o664)):
        with umask(mask):
            it.expect("-o", "set.pb", "item.proto")
        it.has(**{"set.pb": (mode, SET)})
        os.remove("set.pb")


@a_try
def a_file_is_replaced_and_keeps_its_mode(it):
    for mode in (0o600, 0o640, 0o755, 0o222, 0o4711):
        it.put("set.pb", LONG, mode)
        before = os.stat("set.pb").st_ino
        it.expect("-o", "set.pb", "item.proto")
        it.has(**{"set.pb": (mode, SET)})
        same(True, before != os.stat("set.pb").st_ino, "another file")
        os.remove("set.pb")


@a_try
def a_link_is_followed(it):
    it.put("below/set.pb", OLD, 0o600)
    os.symlink("set.pb", "below/near")
    os.symlink("below/near", "far")
    os.symlink(os.path.abspath("far"), "farthest")
    it.expect("-o", "farthest", "item.proto")
    it.has(below="folder", far="link", farthest="link")
    same(["near", "set.pb"], sorted(os.listdir("below")), "below")
    same((0o100600, SET), (os.stat("below/set.pb").st_mode, content("below/set.pb")), "set.pb")


@a_try
def a_link_to_nothing_is_followed(it):
    os.symlink("below/set.pb", "far")
    it.expect("-o", "far", "item.proto", status=1,
              err=quoted("far", "No such file or directory (os error 2)"))  # fmt: skip
    it.has(far="link")
    os.mkdir("below")
    it.expect("-o", "far", "item.proto")
    it.has(far="link", below="folder")
    same(SET, content("below/set.pb"), "set.pb")


@a_try
def links_in_a_circle_are_told(it):
    os.symlink("b", "a")
    os.symlink("a", "b")
    why = "Too many levels of symbolic links (os error 40)"
    it.expect("-o", "a", "item.proto", status=1, err=quoted("a", why))
    it.has(a="link", b="link")


@a_try
def a_file_with_several_names_keeps_them(it):
    for old in (b"", OLD, LONG):
        it.put("one", old, 0o604)
        os.link("one", "two")
        it.expect("-o", "one", "item.proto")
        it.has(one=(0o604, SET), two=(0o604, SET))
        same(2, os.stat("one").st_nlink, "names")
        os.remove("one"), os.remove("two")


@a_try
def a_read_only_file_is_left(it):
    it.put("set.pb", OLD, 0o444)
    it.expect("-o", "set.pb", "item.proto", status=1, err=quoted("set.pb", "permission denied"))
    it.has(**{"set.pb": (0o444, OLD)})


@a_try
def a_folder_is_left(it):
    os.mkdir("below")
    it.expect("-o", "below", "item.proto", status=1, err=quoted("below", "is a directory"))
    it.expect("-o", "no/set.pb", "item.proto", status=1,
              err=quoted("no/set.pb", "No such file or directory (os error 2)"))  # fmt: skip
    it.has(below="folder")


@a_try
def names_may_be_as_long_as_names_are(it):
    name = "n" * 255
    for _ in range(2):
        it.expect("-o", name, "item.proto")
        it.has(**{name: (0o644, SET)})
    why = "File name too long (os error 36)"
    it.expect("-o", "n" * 256, "item.proto", status=1, err=quoted("n" * 256, why))
    it.has(**{name: SET})


@a_try
def what_a_kill_left_is_left_and_in_nobodys_way(it):
    it.put(".protobuf_parse.0.part", b"left")
    it.expect("-o", "set.pb", "item.proto")
    it.has(**{"set.pb": SET, ".protobuf_parse.0.part": b"left"})


@a_try
def a_fault_leaves_the_file(it):
    it.put("faulty.proto", FAULTY)
    it.expect("-o", "new.pb", "faulty.proto", status=1, err=FAULT)
    it.has()
    it.put("set.pb", OLD, 0o600)
    it.expect("-o", "set.pb", "--list", "item.proto", "faulty.proto", status=1, err=FAULT)
    it.has(**{"set.pb": (0o600, OLD)})


@a_try
def a_warning_is_told_beside_the_set(it):
    it.put("warned.proto", WARNED)
    it.expect("-o", "set.pb", "item.proto", "warned.proto", err=WARNING)
    same(True, content("set.pb").startswith(SET), "set.pb")


@a_try
def a_refused_write_leaves_what_was_there(it):
    why = "File too large (os error 27)"
    how = {"preexec_fn": bounded(20), "status": 1, "err": quoted("set.pb", why)}
    it.expect("-o", "set.pb", "item.proto", **how)
    it.has()
    it.put("set.pb", LONG, 0o640)
    it.expect("-o", "set.pb", "item.proto", **how)
    it.has(**{"set.pb": (0o640, LONG)})
    # Also where it has several names, and is written as it stands: both shorter and longer ones.
    for old in (LONG, b"short", b""):
        it.put("set.pb", old)
        os.link("set.pb", "other")
        it.expect("-o", "set.pb", "item.proto", **how)
        it.has(**{"set.pb": old, "other": old})
        os.remove("other")


@a_try
def a_full_disk_leaves_what_was_there(it):
    as_nobody()
    os.mkdir("disk")
    mount = ["mount", "-t", "tmpfs", "-o", "size=64k", "tmpfs", "disk"]
    if subprocess.run(mount, stderr=subprocess.DEVNULL).returncode:
        raise LeftOut("nothing can be mounted")
    try:
        it.put("disk/old.pb", LONG)
        it.put("disk/one", b"short")
        os.link("disk/one", "disk/two")
        with open("disk/rest", "wb", buffering=0) as file, contextlib.suppress(OSError):
            while True:
                file.write(b"x" * 4096)
        why = "No space left on device (os error 28)"
        it.put("big.proto", messages(300))
        for name in ("disk/old.pb", "disk/new.pb", "disk/one"):
            it.expect("-o", name, "big.proto", status=1, err=quoted(name, why))
        same(["old.pb", "one", "rest", "two"], sorted(os.listdir("disk")), "the disk")
        same((LONG, b"short"), (content("disk/old.pb"), content("disk/two")), "the disk")
    finally:
        subprocess.run(["umount", "disk"], check=True)


@a_try
def a_kill_leaves_the_old_file_or_the_new_one(it):
    if it.quick:
        raise LeftOut("--quick")
    it.put("big.proto", messages(4000))
    it.expect("-o", "new.pb", "big.proto")
    new = content("new.pb")
    os.remove("new.pb")
    started = time.monotonic()
    it.expect("-o", "set.pb", "big.proto")
    took = time.monotonic() - started
    kept = set()
    for _ in range(100):
        it.put("set.pb", OLD)
        run = subprocess.Popen([it.program, "-o", "set.pb", "big.proto"])
        time.sleep(random.uniform(0, took * 1.2))
        run.kill()
        run.wait()
        kept.add(content("set.pb"))
        left = set(os.listdir()) - {"set.pb", "big.proto", "item.proto"}
        same(set(), {name for name in left if name != ".protobuf_parse.0.part"}, "names")
        for name in left:
            os.remove(name)
    same(set(), kept - {OLD, new}, "other files")


# ---- devices, pipes and streams


@a_try
def the_standard_streams_are_written_to(it):
    link = os.readlink("/dev/stdout")
    it.expect("-o", "/dev/stdout", "item.proto", out=SET)
    it.expect("-o", "/dev/stderr", "item.proto", err=SET)
    it.expect("-o", "/dev/stdout", "--list", "item.proto", out=SET + LISTING)
    # A file is written to where it stands, behind what it has.
    with open("out", "wb", buffering=0) as out:
        out.write(b"head\n")
        it.expect("-o", "/dev/stdout", "--list", "item.proto", stdout=out)
        out.write(b"tail\n")
    whole = b"head\n" + SET + LISTING + b"tail\n"
    it.has(out=whole)
    with open("out", "ab") as out:
        it.expect("-o", "out", "item.proto", stdout=out)
    it.has(out=whole + SET)
    same(link, os.readlink("/dev/stdout"), "/dev/stdout")


@a_try
def open_files_are_written_to(it):
    with open("out", "wb") as out:
        it.expect("-o", f"/dev/fd/{out.fileno()}", "item.proto", pass_fds=[out.fileno()])
        it.expect("-o", f"/proc/self/fd/{out.fileno()}", "item.proto", pass_fds=[out.fileno()])
        same(os.fstat(out.fileno()).st_ino, os.stat("out").st_ino, "the same file")
    it.has(out=SET)
    read, write = os.pipe()
    it.expect("-o", f"/dev/fd/{write}", "item.proto", pass_fds=[write])
    os.close(write)
    same(SET, os.read(read, 1000), "the pipe")
    os.close(read)


@a_try
def a_set_goes_to_standard_output(it):
    it.expect("-o", "-", "item.proto", out=SET)
    it.has()
    it.put("faulty.proto", FAULTY)
    it.expect("-o", "-", "faulty.proto", status=1, err=FAULT)


@a_try
def devices_and_pipes_are_written_to(it):
    it.expect("-o", "/dev/null", "item.proto")
    same(True, stat.S_ISCHR(os.stat("/dev/null").st_mode), "/dev/null")
    why = "No space left on device (os error 28)"
    it.expect("-o", "/dev/full", "item.proto", status=1, err=quoted("/dev/full", why))
    same(True, stat.S_ISCHR(os.stat("/dev/full").st_mode), "/dev/full")
    os.mkfifo("pipe")
    said = []
    reader = threading.Thread(target=lambda: said.append(content("pipe")))
    reader.start()
    it.expect("-o", "pipe", "item.proto")
    reader.join()
    same([SET], said, "the pipe")
    same(True, stat.S_ISFIFO(os.stat("pipe").st_mode), "the pipe")


@a_try
def outputs_that_fail_are_told(it):
    it.put("warned.proto", WARNED)
    full = "protobuf_parse_cli: error: could not write the output: {}\n".format
    with open("/dev/full", "wb") as file:
        why = full("No space left on device (os error 28)").encode()
        it.expect("--list", "item.proto", stdout=file, status=1, err=why)
        it.expect("--help", stdout=file, status=1, err=why)
        # Where not even that can be said, the status says it.
        it.expect("--list", "item.proto", stdout=file, stderr=file, status=1)
        it.expect("warned.proto", stderr=file, status=1)
        it.expect("faulty.proto", stderr=file, status=1)
        it.expect("--no-such-word", stderr=file, status=2)
    closed = lambda fd: {"preexec_fn": lambda: os.close(fd), "status": 1}
    why = full("Bad file descriptor (os error 9)").encode()
    it.expect("--list", "item.proto", err=why, **closed(1))
    it.expect("--list", "-o", "set.pb", "item.proto", err=why, **closed(1))
    it.has(**{"set.pb": SET})
    it.expect("--list", "-o", "set.pb", "warned.proto", out=WARNED_LISTING, **closed(2))
    it.expect("item.proto", preexec_fn=lambda: (os.close(0), os.close(1), os.close(2)))
    read, write = os.pipe()
    os.close(read)
    why = full("Broken pipe (os error 32)").encode()
    it.expect("--list", "item.proto", stdout=write, status=1, err=why)
    os.close(write)


WARNED_LISTING = LISTING + b"file warned.proto\n  syntax proto2\n  import item.proto\n"


# ---- whose a file is


@a_try
def a_folder_that_takes_no_file_has_its_files_written(it):
    nobody = as_nobody()
    os.mkdir("shut")
    for name, mode in (("own", 0o600), ("all", 0o666)):
        it.put(f"shut/{name}", LONG, mode)
    os.chown("shut/own", 65534, 65534)
    for name, mode in (("own", 0o600), ("all", 0o666)):
        it.expect("-o", f"shut/{name}", "item.proto", **nobody)
        found = os.stat(f"shut/{name}")
        same((mode, SET), (stat.S_IMODE(found.st_mode), content(f"shut/{name}")), name)
    why = "Permission denied (os error 13)"
    it.expect("-o", "shut/new", "item.proto", status=1, err=quoted("shut/new", why), **nobody)
    same(["all", "own"], sorted(os.listdir("shut")), "shut")


@a_try
def a_file_that_this_user_may_not_write_is_left(it):
    nobody = as_nobody()
    os.mkdir("open")
    os.chmod("open", 0o777)
    it.put("open/set.pb", OLD, 0o644)
    why = "Permission denied (os error 13)"
    it.expect("-o", "open/set.pb", "item.proto", status=1, err=quoted("open/set.pb", why), **nobody)
    same(["set.pb"], os.listdir("open"), "open")
    same(OLD, content("open/set.pb"), "set.pb")


@a_try
def a_file_keeps_its_owner(it):
    nobody = as_nobody()
    for folder, mode in (("open", 0o777), ("sticky", 0o1777)):
        os.mkdir(folder)
        os.chmod(folder, mode)
        it.put(f"{folder}/set.pb", OLD, 0o666)
        it.expect("-o", f"{folder}/set.pb", "item.proto", **nobody)
        found = os.stat(f"{folder}/set.pb")
        same((0, 0, 0o100666), (found.st_uid, found.st_gid, found.st_mode), folder)
        same((["set.pb"], SET), (os.listdir(folder), content(f"{folder}/set.pb")), folder)
    it.put("set.pb", OLD, 0o640)
    os.chown("set.pb", 65534, 65534)
    it.expect("-o", "set.pb", "item.proto")
    found = os.stat("set.pb")
    same((65534, 65534, 0o100640), (found.st_uid, found.st_gid, found.st_mode), "set.pb")
    same(SET, content("set.pb"), "set.pb")


@a_try
def a_mounted_file_is_written(it):
    as_nobody()
    it.put("below"), it.put("set.pb", LONG)
    if subprocess.run(["mount", "--bind", "below", "set.pb"], stderr=subprocess.DEVNULL).returncode:
        raise LeftOut("nothing can be mounted")
    try:
        it.expect("-o", "set.pb", "item.proto")
        it.has(**{"set.pb": SET, "below": SET})
    finally:
        subprocess.run(["umount", "set.pb"], check=True)


@a_try
def a_link_of_another_user_is_followed_where_the_system_does(it):
    as_nobody()
    if content("/proc/sys/fs/protected_symlinks").strip() != b"1":
        raise LeftOut("the system follows all links")
    os.mkdir("sticky")
    os.chmod("sticky", 0o1777)
    it.put("set.pb", OLD)
    os.symlink(os.path.abspath("set.pb"), "sticky/link")
    os.chown("sticky/link", 65534, 65534, follow_symlinks=False)
    why = "Permission denied (os error 13)"
    it.expect("-o", "sticky/link", "item.proto", status=1, err=quoted("sticky/link", why))
    it.has(**{"set.pb": OLD, "sticky": "folder"})


# ---- what is read


@a_try
def pipes_are_inputs(it):
    named = lambda name: LISTING.replace(b"item.proto", name.encode())
    with pipe_with(TEXT) as pipe:
        it.expect("-I", "/dev", "--list", "/dev/stdin", stdin=pipe, out=named("stdin"))
    with open("item.proto", "rb") as file:
        it.expect("-I", "/dev", "--list", "/dev/stdin", stdin=file, out=named("stdin"))
    for include in ("/dev/fd", "/dev", "/"):
        with pipe_with(TEXT) as pipe:
            path = f"/dev/fd/{pipe}"
            name = path.removeprefix(include).strip("/")
            it.expect("-I", include, "--list", path, pass_fds=[pipe], out=named(name))
    os.mkfifo("pipe.proto")
    for words in (["pipe.proto"], ["pipe.proto", "pipe.proto"], ["-I", ".", "./pipe.proto"]):
        feeder = threading.Thread(target=it.put, args=("pipe.proto", TEXT))
        feeder.start()
        it.expect("--list", *words, out=named("pipe.proto"))
        feeder.join()
    none = b'/dev/stdin: error: the file lies in none of the includes ["."] [L3]\n'
    it.expect("-I", ".", "/dev/stdin", status=1, err=none)


@a_try
def standard_input_has_a_path(it):
    named = LISTING.replace(b"item.proto", b"shop/new.proto")
    with pipe_with(TEXT) as pipe:
        it.expect("--stdin_path=shop/new.proto", "--list", "-", stdin=pipe, out=named)
    told = b"shop/new.proto:2:1: error: unexpected end of file, expected a statement or `}` [S8]\n"
    with pipe_with(FAULTY) as pipe:
        it.expect("--stdin_path", "shop/new.proto", "-", stdin=pipe, status=1, err=told)
    # What imports it finds the same text, and not the file that lies there.
    it.put("shop/new.proto", FAULTY)
    it.put("user.proto", b"import 'shop/new.proto'; message User { optional shop.Item i = 1; }")
    includes = ["-I", "shop", "-I", "."]
    for words in (["-", "user.proto"], ["user.proto", "-"], [*includes, "user.proto", "-"]):
        with pipe_with(TEXT) as pipe:
            it.expect("--stdin_path=shop/new.proto", *words, stdin=pipe)


@a_try
def sets_are_read(it):
    it.put("set.pb", SET)
    os.remove("item.proto")
    it.expect("--descriptor_set_in=set.pb", "--list", "item.proto", out=LISTING)
    with pipe_with(SET) as pipe:
        words = [f"--descriptor_set_in=/dev/fd/{pipe}", "--list", "item.proto"]
        it.expect(*words, pass_fds=[pipe], out=LISTING)
    # It is read before it is written.
    it.expect("--descriptor_set_in=set.pb", "-o", "set.pb", "item.proto")
    it.has(**{"set.pb": SET})
    it.put("user.proto", b"import 'item.proto'; message User { optional shop.Item item = 1; }")
    it.expect("-I.", "--descriptor_set_in=set.pb", "--rules=off", "user.proto")
    it.put("set.pb", SET[:-1])
    told = b"set.pb: error: this is no descriptor set: byte 2: the bytes end inside a record [L14]\n"
    it.expect("--descriptor_set_in=set.pb", "item.proto", status=1, err=told)


@a_try
def pipes_are_read_once(it):
    """A fault is told at its place, though more is looked at then than the run did."""
    for text, told in (
        (FAULTY, ":2:1: error: unexpected end of file, expected a statement or `}` [S8]"),
        (b"import 'no.proto';", ':1:1: error: the imported file "no.proto" is not found; '
         'it was looked for in ["/dev"] [L2]'),  # fmt: skip
        (b"message M { optional N n = 1; optional O o = 2; }", ""),
    ):
        with pipe_with(text) as pipe:
            err = f"/dev/stdin{told}\n"
            if not told:
                err = '/dev/stdin:1:13: error: "N" is not defined [E3]\n'
                err += '/dev/stdin:1:31: error: "O" is not defined [E3]\n'
            it.expect("-I", "/dev", "/dev/stdin", stdin=pipe, status=1, err=err.encode())
    # What imports it finds the same text.
    it.put("user.proto", b"import 'stdin'; message User { optional shop.Item item = 1; }")
    for words in (["user.proto"], ["user.proto", "/dev/stdin"], ["/dev/stdin", "user.proto"]):
        with pipe_with(TEXT) as pipe:
            it.expect("-I", ".", "-I", "/dev", *words, stdin=pipe)


@a_try
def each_path_is_opened_once(it):
    if not shutil.which("strace"):
        raise LeftOut("there is no strace")
    it.put("faulty.proto", FAULTY)
    for name in ("a", "b", "c"):
        it.put(f"{name}.proto", b"import 'faulty.proto'; import 'no.proto'; import 'item.proto';")
    words = ["a.proto", "faulty.proto", "b.proto", "c.proto", "item.proto", "a.proto"]
    trace = ["strace", "-o", "trace", "-e", "trace=openat", it.program, *words]
    said = subprocess.run(trace, stdout=subprocess.PIPE, stderr=subprocess.PIPE)
    same((1, b""), (said.returncode, said.stdout), "the command")
    opened = re.findall(rb'openat\(AT_FDCWD, "([^"]*[.]proto)"', content("trace"))
    paths = [b"a.proto", b"b.proto", b"c.proto", b"faulty.proto", b"item.proto", b"no.proto"]
    same(paths, sorted(opened), "what is opened")


@a_try
def a_text_without_end_is_too_long(it):
    line = "{}:1:1: error: the file has over 2147483647 bytes [S20]\n".format
    with open("long.proto", "wb") as file:
        file.truncate(3 << 30)
    it.put("user.proto", b"import 'long.proto';")
    it.expect("long.proto", status=1, err=line("long.proto").encode())
    it.expect("user.proto", status=1, err=line("long.proto").encode())
    it.expect("--imports", "long.proto", status=1, err=line("long.proto").encode())
    if it.quick:
        raise LeftOut("--quick")
    it.put("user.proto", b"import 'zero';")
    it.expect("-I", "/dev", "/dev/zero", status=1, err=line("/dev/zero").encode())
    it.expect("-I", ".", "-I", "/dev", "user.proto", status=1, err=line("/dev/zero").encode())


@a_try
def an_include_without_the_file_is_passed(it):
    it.put("one/shop", b"a file in place of a folder")
    os.makedirs("one/below/item.proto")
    for path in ("shop/item.proto", "below/item.proto"):
        it.put(f"two/{path}", TEXT)
        text = f"import '{path}'; message User {{ optional shop.Item item = 1; }}"
        it.put("user.proto", text.encode())
        it.expect("-I", ".", "-I", "one", "-I", "two", "user.proto")
        lost = f'error: the imported file "{path}" is not found; it was looked for in [".", "one"]'
        err = f"user.proto:1:1: {lost} [L2]\n".encode()
        it.expect("-I", ".", "-I", "one", "user.proto", status=1, err=err)
    err = b"one/below/item.proto: error: no `.proto` file lies below the folder [L16]\n"
    it.expect("-I", "one", "one/below/item.proto", status=1, err=err)


@a_try
def a_folder_is_its_files(it):
    for name in ("b/y.proto", "b/a/x.proto", "c.proto", "b/note.txt", "proto", ".proto/z.proto"):
        it.put(f"top/{name}", b"import 'z.proto';")
    os.symlink("..", "top/b/up")
    os.symlink("../c.proto", "top/b/linked.proto")
    names = [".proto/z.proto", "b/a/x.proto", "b/linked.proto", "b/y.proto", "c.proto"]
    for top in ("top", "top/"):
        out = "".join(f"top/{name}: z.proto\n" for name in names).encode()
        it.expect("--imports", "-I", "top", top, out=out)
    it.expect("--imports", "top/b/a", "top/c.proto",
              out=b"top/b/a/x.proto: z.proto\ntop/c.proto: z.proto\n")  # fmt: skip


@a_try
def a_shadowed_input_is_refused(it):
    shadowed = (
        '{}: error: Input is shadowed in the --proto_path by "{}".  Either use the latter file as '
        "your input or reorder the --proto_path so that the former file's location comes first. "
        "[L6]\n"
    ).format
    it.put("a/x.proto", TEXT)
    it.put("b/x.proto", TEXT)
    os.makedirs("c/x.proto")
    err = shadowed("b/x.proto", "a/x.proto").encode()
    it.expect("-I", "a", "-I", "b", "b/x.proto", status=1, err=err)
    it.expect("-I", "a/", "-I", "b", "--imports", "b/x.proto", status=1, err=err)
    err = shadowed("./b//x.proto", "c/x.proto").encode()
    it.expect("-I", "c", "-I", "a", "-I", "b", "./b//x.proto", status=1, err=err)
    it.put("a/x.proto", FAULTY)
    it.expect("-I", "b", "-I", "a", "b/x.proto")
    it.expect("-I", ".", "-I", "a", "-I", "b", "b/x.proto")


@a_try
def words_that_are_no_utf8_are_told(it):
    line = "protobuf_parse_cli: error: \"{}\" is not UTF-8\n".format
    it.expect(b"caf\xe9.proto", status=2, err=line("caf\ufffd.proto").encode())
    it.expect("-o", b"\xff\xfe.pb", "item.proto", status=2, err=line("\ufffd\ufffd.pb").encode())
    it.expect(b"two\nlines\xff", status=2, err=line("two\\nlines\ufffd").encode())
    # They may be as long as paths are.
    it.expect("--list", "./" * 2000 + "item.proto", out=LISTING)
    it.has()


def main():
    parser = argparse.ArgumentParser(description=__doc__.split("\n")[0])
    parser.add_argument("--program")
    parser.add_argument("--quick", action="store_true")
    parser.add_argument("names", nargs="*")
    options = parser.parse_args()
    program = options.program
    if not program:
        program = f"{CRATE}/out/protobuf_parse_cli"
        words = ["rt", "run", "--", "--version"]
        subprocess.run(words, cwd=CRATE, check=True, stdout=subprocess.DEVNULL)
    counts = {"as wanted": 0, "not as wanted": 0, "left out": 0}
    for function in TRIES:
        title = function.__name__.replace("_", " ")
        if options.names and not any(it in title for it in options.names):
            continue
        with tempfile.TemporaryDirectory() as folder:
            os.chmod(folder, 0o755)
            os.chdir(folder)
            it = Folder(os.path.abspath(program))
            it.quick = options.quick
            try:
                with umask(0o022):
                    function(it)
                counts["as wanted"] += 1
            except LeftOut as why:
                counts["left out"] += 1
                print(f"left out: {title}: {why}", flush=True)
            except Exception:
                counts["not as wanted"] += 1
                print(f"{title}:\n{traceback.format_exc()}", flush=True)
            os.chdir(TOP)
    print(", ".join(f"{count} {what}" for what, count in counts.items()))
    return 1 if counts["not as wanted"] else 0


sys.exit(main())
