#!/usr/bin/env python3
"""Puts the unfinished work of the folder unfinished/ in the place of what stands there, and removes the folder.

usage: python3 tools/take_up_unfinished.py        at the top, with everything committed, in a branch at the commit that
it fits (FITS below): what stands here was rewritten since. Commit it there, and merge the later commits into it.

A file of unfinished/ goes to the same path at the top, without the ending .txt that keeps the toolchain from reading
it; unfinished/list-of-crates.txt becomes crates.txt; and the files that unfinished/taken-away lists are removed, since
the work moved what is in them to other crates. docs/PORT.md says what the work is and which promises it changes.
"""

import os
import shutil
import subprocess
import sys

SHELF = "unfinished"
FITS = "2bba2c899efa3666feb7e6a06ed4dd2ef090a585"


def place(path):
    if path == "list-of-crates.txt":
        return "crates.txt"
    return path[: -len(".txt")] if path.endswith((".rt.txt", ".antt.txt")) else path


def fits():
    return subprocess.run(["git", "diff", "--quiet", FITS, "--", "crates", "crates.txt"]).returncode == 0


def main():
    if not fits():
        sys.exit(f"the unfinished work fits commit {FITS}: branch off there (git switch -c unfinished {FITS})")
    for folder, _, names in os.walk(SHELF):
        for name in names:
            path = os.path.relpath(os.path.join(folder, name), SHELF)
            if path == "taken-away":
                continue
            to = place(path)
            os.makedirs(os.path.dirname(to) or ".", exist_ok=True)
            shutil.copyfile(os.path.join(SHELF, path), to)
    with open(os.path.join(SHELF, "taken-away"), encoding="utf-8") as f:
        for path in f.read().split():
            os.remove(path)
    shutil.rmtree(SHELF)


if __name__ == "__main__":
    main()
