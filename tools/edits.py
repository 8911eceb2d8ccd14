#!/usr/bin/env python3
"""Tells each must-fail edit whose old text does not stand once in its file.

usage: tools/edits.py     at the top; ends with 1 if there is one
"""
import glob
import os
import sys


def main():
    bad = 0
    for path in sorted(glob.glob("crates/*/must-fail/*.edit")):
        crate, text = path.split("/")[1], {}
        name, old = "", ""
        with open(path, encoding="utf-8") as f:
            lines = f.read().split("\n")
        for line in lines:
            if line.startswith("file: "):
                name = line[6:]
                if name not in text:
                    with open(os.path.join("crates", crate, name), encoding="utf-8") as f:
                        text[name] = f.read()
            elif line.startswith("old: "):
                old = line[5:]
            elif line.startswith("new: "):
                if text[name].count(old) != 1:
                    print(f"{path}: {text[name].count(old)} times: {old}")
                    bad += 1
                text[name] = text[name].replace(old, line[5:], 1)
    return 1 if bad else 0


if __name__ == "__main__":
    sys.exit(main())
