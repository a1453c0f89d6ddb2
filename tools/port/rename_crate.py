#!/usr/bin/env python3
"""Renames a crate: tools/port/rename_crate.py OLD NEW, at the top of the repository, once.

The folder, crates.txt, and in every .rt and .antt file the paths `OLD::` and `Rattle.OLD.`.
"""
import os
import re
import sys


def main():
    old, new = sys.argv[1:]
    os.rename(f"crates/{old}", f"crates/{new}")
    lines = []
    with open("crates.txt", encoding="utf-8") as f:
        for line in f:
            if not line.startswith("#"):
                line = re.sub(rf"(?<![\w]){old}(?![\w])", new, line)
            lines.append(line)
    with open("crates.txt", "w", encoding="utf-8") as f:
        f.writelines(lines)
    for folder, dirs, files in os.walk("crates"):
        dirs[:] = sorted(d for d in dirs if d != "out")
        for name in sorted(files):
            if not name.endswith((".rt", ".antt")):
                continue
            path = os.path.join(folder, name)
            with open(path, encoding="utf-8") as f:
                text = f.read()
            turned = re.sub(rf"\bRattle\.{old}\.", f"Rattle.{new}.", text)
            turned = re.sub(rf"(?<![\w:.]){old}::", f"{new}::", turned)
            if turned != text:
                with open(path, "w", encoding="utf-8") as f:
                    f.write(turned)


if __name__ == "__main__":
    main()
