"""The texts that lie beside the program in a release: what was proved, the notices, the control
file of the package, and how libraries are used."""

import release_gate as gate

TRIED = """\
THIS IS NO RELEASE: it was made to try the script out (--without-license). {what}
"""
COVERED = """\
For every list of inputs, whatever the files hold and unless memory runs out, the descriptors that
are returned are what the texts become by the definitions of the language, a fault that is told
stands at its place, and no call panics, indexes out of range, overflows or fails to end. The texts
of faults, and what the command does with its words, files and outputs, are only tested, and that
its definitions say what the language's standard means is trusted, as are the toolchain, LLVM and
the C library. docs/PROVED.md of the repository has the main contracts with links to all, what is
only tested, and what is neither.
"""
LIBRARIES = """\
The libraries of {name} {version}, as the gate built them: what is proved stands in PROOF.txt.

They are for a machine that has the same toolchain, on which nothing of them is proved again. It is
the same one if `rt version` there prints

    {version_line}

and its rlibs/std.rlib/format has the line

    rattle-build {build}

since a check takes a library only from the build of rattle that wrote it. KIT is the kit's folder.

For `rt`: a library that a crates.txt does not list is looked for in KIT/rlibs, so

    cp -r rlibs/*.rlib KIT/rlibs/

lets a repository of your own have the line `my_crate: protobuf_parse` in its crates.txt, and
`rt check`, `rt lib`, `rt run` and `rt ci` take the library from there. Three things follow.
`rt try` wants a library's source, and does not run such a crate. A checkout of {name} itself
is refused on that machine, since a crate may not have a library's name, until the folders are
removed again. And what `rt ci` had kept there counts no more, since the kit is another one.

For `rattle`, without a change of the kit: wherever these folders lie, as in DIR, a check takes
`--extern NAME=DIR/NAME.rlib` for each library that the crate names, and `-L dependency=DIR` for
those below.

    KIT/bin/rattle check --crate-name my_crate src/lib.rt \\
        --extern std=KIT/rlibs/std.rlib -L dependency=KIT/rlibs \\
        --extern protobuf_parse=DIR/protobuf_parse.rlib -L dependency=DIR \\
        --antt-project KIT/rattle/logic/antt-project.json --logic-built KIT/logic_built

In a checkout of {name}, `rt` does not take these folders in place of its own: it takes a
library there only with the mark that `rt lib` writes beside it, and the gate writes none.

A verdict over a built library says `libraries-built=trusted` and `statements=trusted`: it trusts
whoever can write to these folders. SHA256SUMS of the release has the sum of the archive.
"""


def heading(text):
    """A heading of a plain text."""
    return f"\n{text}\n{'-' * len(text)}\n\n"


def proof(found, release, tried=""):
    """PROOF.txt. `found` is the gate's log, `release` what is released, and `tried` says of what
    is no release where its program is from."""
    text = TRIED.format(what=tried) if tried else ""
    text += f"{release.name} {release.version}, of commit {release.commit}\n"
    text += heading("The gate") + f"{found.ok}\n{found.last}\n"
    text += heading("The toolchain") + f"{release.toolchain}\n"
    text += f"logic {release.logic}\n"
    text += heading("The program") + f"sha256 {release.sum}\n{found.said[gate.PROGRAM]}\n"
    text += heading("What is proved") + COVERED
    text += heading("The verdicts on all crates")
    text += "".join(f"{crate}\n    {said}\n" for crate, said in found.said.items())
    return text


def notices(crates):
    """The notices of the kit's crates that the program is linked with, and the names of those that
    have none beside them."""
    linked = gate.kit_crates(crates)
    bare = [crate for crate in linked if not gate.licences(crate)]
    text = "The program has code of these crates, which are ports of others' work.\n"
    for crate in linked:
        for file in gate.licences(crate):
            text += heading(f"{crate}: {file.name}") + file.read_text("utf-8").strip("\n") + "\n"
    text += heading("The toolchain's own")
    return text + f"No notice lies beside these: {', '.join(bare)}.\n"


def control(release, told, entries):
    """The control file of the package with these files, whose description is the command's own."""
    size = sum((entry.size() + 1023) // 1024 for entry in entries.values())
    about = told.about.rstrip(".")
    wanted = f"libc6 (>= {release.glibc})" if release.glibc else "libc6"
    return (
        f"Package: {release.name}\n"
        f"Version: {release.version}\n"
        "Architecture: amd64\n"
        f"Maintainer: {release.maintainer}\n"
        f"Installed-Size: {size}\n"
        f"Depends: {wanted}\n"
        "Section: devel\n"
        "Priority: optional\n"
        f"Description: {about[:1].lower() + about[1:]}\n"
        " What is proved of it stands in PROOF.txt, beside its documentation.\n"
    )


def libraries(release, build):
    """How the libraries are used, which this build of rattle wrote."""
    return LIBRARIES.format(
        name=release.name,
        version=release.version,
        version_line=release.toolchain,
        build=build,
    )
