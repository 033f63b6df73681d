#!/usr/bin/env python3
"""Brings the repository's own definitions and lemmas to snake case, by the table respell.txt beside this file.

usage: python3 tools/respell.py [ROOT]     ROOT: the top of a checkout whose files port.py has turned; this one if left out

It goes by whole names, in the .rt and .antt files and the must-fail edits below crates/, and in names between backticks of
README.md and docs/. Strings of .rt files and edits keep what they say. It is run once, after port.py, and proves nothing.
"""

import os
import re
import sys

HERE = os.path.dirname(os.path.realpath(__file__))
NAME = re.compile(r"[A-Za-z_][\w'-]*")
STRING = re.compile(r'"(?:[^"\\\n]|\\.)*"')
TICKS = re.compile(r"`[^`\n]+`")

# A lemma whose new name would be that of a definition that other files have.
IN_FILES = {
    "crates/flow/proofs/Parts.antt": {"register_of": "register_has"},
    "crates/flow/proofs/sources/register_operand/Answers.antt": {"register_of": "register_has"},
}


def table():
    with open(os.path.join(HERE, "respell.txt"), encoding="utf-8") as f:
        return dict(line.split() for line in f)


def renamed(text, names):
    return NAME.sub(lambda m: names.get(m.group(0), m.group(0)), text)


def turned(path, text, names):
    if path.endswith(".antt"):
        return renamed(text, names)
    if path.endswith(".md"):
        return TICKS.sub(lambda m: renamed(m.group(0), names), text)
    parts, last = [], 0
    for m in STRING.finditer(text):
        parts += [renamed(text[last:m.start()], names), m.group(0)]
        last = m.end()
    return "".join(parts) + renamed(text[last:], names)


def files(root):
    for folder in ("crates", "docs"):
        for at, dirs, names in os.walk(os.path.join(root, folder)):
            dirs[:] = sorted(d for d in dirs if d != "out")
            for name in sorted(names):
                if name.endswith((".rt", ".antt", ".edit", ".md")):
                    yield os.path.join(at, name)
    yield os.path.join(root, "README.md")


def main():
    root = sys.argv[1] if len(sys.argv) > 1 else os.path.dirname(HERE)
    names = table()
    count = 0
    for path in files(root):
        with open(path, encoding="utf-8") as f:
            old = f.read()
        new = turned(path, old, names | IN_FILES.get(os.path.relpath(path, root), {}))
        if new != old:
            count += 1
            with open(path, "w", encoding="utf-8") as f:
                f.write(new)
    print(f"respell: {count} files")


if __name__ == "__main__":
    main()
