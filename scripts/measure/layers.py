#!/usr/bin/env python3
"""Writes files in layers to a folder: layers.py FOLDER [LAYERS WIDTH IMPORTS [public]]

Each file of a layer imports some of the layer below, and top.proto imports the topmost layer. With
`public` every import is a public one."""

import os
import sys


def text_of(layer, number, width, imports, word):
    below = [f"l{layer - 1}_{(number + i) % width}.proto" for i in range(imports)]
    lines = ['syntax = "proto3";']
    if layer > 0:
        lines += [f'{word} "{name}";' for name in below]
    lines.append(f"message M{layer}_{number} {{ int32 a = 1; }}")
    return "\n".join(lines) + "\n"


def main(folder, layers="99", width="100", imports="10", public=""):
    layers, width, imports = int(layers), int(width), int(imports)
    word = "import public" if public else "import"
    os.makedirs(folder, exist_ok=True)
    for layer in range(layers):
        for number in range(width):
            with open(os.path.join(folder, f"l{layer}_{number}.proto"), "w") as out:
                out.write(text_of(layer, number, width, imports, word))
    with open(os.path.join(folder, "top.proto"), "w") as out:
        out.write('syntax = "proto3";\n')
        out.writelines(f'{word} "l{layers - 1}_{i}.proto";\n' for i in range(width))


if __name__ == "__main__":
    main(*sys.argv[1:])
