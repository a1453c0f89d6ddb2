#!/usr/bin/env python3
"""Respells the repository's own definitions and lemmas after /opt/rattle/port/port.py: words in snake case.

usage: tools/port/respell.py        at the top of the repository, once

respelled.tsv has a line for each name: old, new, and where the line stands for some files only, a part of their path.
A name behind a point is a field or a step and takes no ending `_lem`. In a comment a name with a dash may be plain
English: there only names without one change, and what stands between backticks. Strings stay.
"""
import os
import re

NAME = r"[^\s(){}\[\],;.:=@\"`]"
TOKEN = re.compile(NAME + "+")
TICKED = re.compile(r"`[^`]*`")
QUOTED = re.compile(r'b?"(?:[^"\\]|\\.)*"')


def table(here):
    everywhere, some = {}, []
    with open(os.path.join(here, "respelled.tsv"), encoding="utf-8") as f:
        for line in f:
            old, new, *where = line.rstrip("\n").split("\t")
            if where:
                some.append((where[0], old, new))
            else:
                everywhere[old] = new
    return everywhere, some


def respelled(text, names):
    def one(m):
        word = m.group(0)
        new = names.get(word)
        if new is None:
            return word
        if m.start() > 0 and m.string[m.start() - 1] == "." and new.endswith("_lem"):
            return new[: -len("_lem")]
        return new

    return TOKEN.sub(one, text)


def comment(text, names):
    plain = {o: n for o, n in names.items() if "-" not in o}
    out, last = [], 0
    for m in TICKED.finditer(text):
        out.append(respelled(text[last : m.start()], plain))
        out.append(respelled(m.group(0), names))
        last = m.end()
    return "".join(out) + respelled(text[last:], plain)


def code(text, names):
    out, last = [], 0
    for m in QUOTED.finditer(text):
        out.append(respelled(text[last : m.start()], names))
        out.append(m.group(0))
        last = m.end()
    return "".join(out) + respelled(text[last:], names)


def file(text, names, mark):
    lines = []
    for line in text.split("\n"):
        m = re.search(r"(?:^|\s)" + re.escape(mark) + r"(?:\s|$)", line)
        at = m.start() if m else len(line)
        lines.append(code(line[:at], names) + comment(line[at:], names))
    return "\n".join(lines)


def main():
    everywhere, some = table(os.path.dirname(os.path.realpath(__file__)))
    for folder, dirs, files in os.walk("crates"):
        dirs[:] = sorted(d for d in dirs if d != "out")
        for name in sorted(files):
            path = os.path.join(folder, name)
            mark = {".antt": "--", ".rt": "//"}.get(os.path.splitext(name)[1])
            if not mark:
                continue
            names = dict(everywhere)
            for where, old, new in some:
                if where in path:
                    names[old] = new
            with open(path, encoding="utf-8") as f:
                text = f.read()
            new = file(text, names, mark)
            if new != text:
                with open(path, "w", encoding="utf-8") as f:
                    f.write(new)


if __name__ == "__main__":
    main()
