#!/usr/bin/env python3
"""Gives the definitions and lemmas of crates/ the spelling of today's library.

usage: tools/port_names.py [FOLDER]

Reads pairs `old new` from port_names.txt beside it and respells each name in the .rt and .antt files below
FOLDER/crates. In a comment a name with a dash is respelled only between backticks, since prose has such words
too. A name of a field and of a definition is respelled by crate where the two would fall together.
"""
import os
import re
import sys

HERE = os.path.dirname(os.path.abspath(__file__))
# `bitsRead` is a definition in these crates, and a field elsewhere.
BY_CRATE = {("bitsRead", crate): "bits_read_at" for crate in ("bits", "bit_reader", "checked_bits")}
WORD = re.compile(r"(?<![\w'-])[^\W\d_][\w'-]*")
QUOTED = re.compile(r"`[^`]*`")


def respelled(text, names, crate, dashes):
    def new(match):
        word = match.group(0)
        if "-" in word and not dashes:
            return word
        return BY_CRATE.get((word, crate), names.get(word, word))

    return WORD.sub(new, text)


def line_respelled(line, names, crate, mark):
    code, found, comment = line.partition(mark)
    code = respelled(code, names, crate, True)
    comment = respelled(comment, names, crate, False)
    return code + found + QUOTED.sub(lambda m: respelled(m.group(0), names, crate, True), comment)


def main(folder):
    with open(os.path.join(HERE, "port_names.txt"), encoding="utf-8") as table:
        names = dict(line.split() for line in table if line.strip())
    for top, dirs, files in os.walk(os.path.join(folder, "crates")):
        dirs[:] = sorted(d for d in dirs if d != "out")
        crate = os.path.relpath(top, os.path.join(folder, "crates")).split(os.sep)[0]
        for name in sorted(files):
            mark = {".rt": "//", ".antt": "--"}.get(os.path.splitext(name)[1])
            if mark is None:
                continue
            path = os.path.join(top, name)
            with open(path, encoding="utf-8") as file:
                old = file.read()
            new = "\n".join(line_respelled(line, names, crate, mark) for line in old.split("\n"))
            if new != old:
                with open(path, "w", encoding="utf-8") as file:
                    file.write(new)


if __name__ == "__main__":
    main(sys.argv[1] if len(sys.argv) > 1 else ".")
