#!/usr/bin/env python3
"""check_edits.py [OLDER]: does each edit of crates/*/must-fail, tests/edits and tests/statement/edits still apply?

An edit is lines 'file: NAME', then pairs 'old: TEXT', 'new: TEXT' (and notes, which begin with '#'); each old text must stand once in the file as the pairs before left it.
The line and the reason are printed of each that does not apply; with OLDER, an older checkout, also each edit that is missing or new,
and each whose file is another than there. Ends with 1 where there is anything to say but the counts.
"""
import glob
import os
import re
import sys

ROOT = os.path.dirname(os.path.dirname(os.path.abspath(__file__)))
FOLDERS = ["crates/*/must-fail", "tests/edits/*", "tests/statement/edits"]


def edits(root):
    found = []
    for folder in FOLDERS:
        found += glob.glob(os.path.join(root, folder, "*.edit"))
    return sorted(os.path.relpath(path, root) for path in found)


def base(name):
    """The folder that the edit's 'file:' lines start from."""
    parts = name.split("/")
    if parts[:2] == ["tests", "edits"]:
        return os.path.join("crates", parts[2])
    return os.path.join("crates", parts[1]) if parts[0] == "crates" else "."


def pairs(path):
    """(file, old, new, line of the old text) of each pair."""
    file = old = None
    at = 0
    for number, line in enumerate(open(path, encoding="utf-8"), 1):
        key, _, text = line.rstrip("\n").partition(":")
        text = text[1:] if text.startswith(" ") else text
        if key == "file":
            file = text.strip()
        elif key == "old":
            old, at = text, number
        elif key == "new":
            yield file, old, text, at
        elif line.strip() and not line.startswith("#"):
            yield file, None, line.rstrip("\n"), number


def faults(root, name):
    texts = {}
    for file, old, new, at in pairs(os.path.join(root, name)):
        if old is None:
            yield f"{name}:{at}: no such line in an edit: {new}"
            continue
        path = os.path.join(root, base(name), file)
        if path not in texts:
            if not os.path.exists(path):
                yield f"{name}:{at}: no file {file}"
                return
            texts[path] = open(path, encoding="utf-8").read()
        count = texts[path].count(old)
        if count != 1:
            yield f"{name}:{at}: {count} times in {file}: {old}"
            return
        if old == new:
            yield f"{name}:{at}: changes nothing"
        texts[path] = texts[path].replace(old, new)


def files(root, name):
    return [file for file, _, _, _ in pairs(os.path.join(root, name))]


def main():
    names = edits(ROOT)
    bad = 0
    for name in names:
        said = list(faults(ROOT, name))
        bad += bool(said)
        print(*said, sep="\n", end="\n" if said else "")
    if len(sys.argv) > 1:
        older = edits(sys.argv[1])
        for name in sorted(set(older) ^ set(names)):
            print(f"{name}: {'missing' if name in older else 'new'}")
            bad += 1
        for name in sorted(set(older) & set(names)):
            if set(files(ROOT, name)) != set(files(sys.argv[1], name)):
                print(f"{name}: edits {files(ROOT, name)} and not {files(sys.argv[1], name)}")
                bad += 1
    for start in ["crates/", "tests/edits/", "tests/statement/"]:
        print(start, sum(name.startswith(start) for name in names))
    return 1 if bad else 0


sys.exit(main())
