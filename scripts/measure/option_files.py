#!/usr/bin/env python3
"""Writes N files that set options, and one that imports them: option_files.py FOLDER N [builtins]

Each has ten messages with five custom options each, or with built-in ones, and imports the one file
that declares the custom ones. `top.proto` imports them all. docs/PERFORMANCE.md has what they cost."""

import os
import sys

from attack import PROTO2, builtin_statements, custom_statements, declared_options, messages_with


def write(folder, name, pieces):
    """Writes the text that these are the pieces of."""
    with open(os.path.join(folder, name), "w") as file:
        file.writelines(pieces)


def setting(number, statements):
    """The text of the file with that number, in a package of its own."""
    yield f'{PROTO2}import "options.proto";\npackage part{number};\n'
    yield from messages_with(10, statements)


def main(folder, n, statements):
    """Writes the file of options, those that set them, and the one that imports these."""
    os.makedirs(folder, exist_ok=True)
    write(folder, "options.proto", declared_options())
    for number in range(n):
        write(folder, f"part{number}.proto", setting(number, statements))
    imports = (f'import "part{number}.proto";\n' for number in range(n))
    write(folder, "top.proto", [PROTO2, *imports])


if __name__ == "__main__":
    if len(sys.argv) not in (3, 4) or sys.argv[3:] not in ([], ["builtins"]):
        sys.exit(__doc__)
    chosen = builtin_statements if sys.argv[3:] else custom_statements
    main(sys.argv[1], int(sys.argv[2]), chosen)
