#!/usr/bin/env python3
"""Lists the places in src/ that the design pass counts, point by point.

    python3 tools/places.py [FOLDER]

FOLDER is a checkout of the repository (this one, if none is given). Each line is
a place to look at, and no verdict: docs/DESIGN-PASS.md says which of them count.
"""
import collections
import itertools
import pathlib
import re
import sys

TOP = pathlib.Path(sys.argv[1] if len(sys.argv) > 1 else ".")

# What is looked for by the text of a line.
LINES = [
    ("1a own enums", r"^\s*(pub |pub\(crate\) )?enum "),
    ("1b functions that answer yes or no", r"\) -> bool"),
    (
        "1c numbers for kinds, rules, answers or refusals",
        r"\b(kind|rule|answer): u(8|16|32)\b|Result<\(\), u32>"
        r"|fn (numbered|number_of|\w*by_number)\b|refused\(.*number: u32",
    ),
    ("1d results within results", r"Result<Result|Option<Option"),
    (
        "3 loops that count",
        r"for \w+ in \(?\d+\.\.\w|for \(\w+, .*\.enumerate\(\)|\bwhile |\bloop \{"
        r"|[+-]= 1;|saturating_add\(1\)|\.get\(\w\)",
    ),
    (
        "4a comparison, conversion and printing by hand",
        r"fn (compare|is|is_before|from_rows|terms|\w*by_number|unknown_rule"
        r"|put_\w+|print_\w+|number_of|numbered|figures|held_in|check_same\w*)\b",
    ),
    ("4b fields copied one by one", r"^\s+\w+: self\.[\w.]+,$"),
    ("4c casts", r" as [ui](8|16|32|64|128|size)\b"),
    ("6 arrays, counts, flags", r"\[[\w:]+(\(\))?; \w+\]|\bcount: usize|&(mut )?\[bool\]"),
    ("7 boxed closures, dyn, function pointers", r"\bdyn |\bBox<|: fn\("),
]


def sources():
    return sorted(TOP.glob("crates/*/src/**/*.rt"))


def name(path):
    return path.relative_to(TOP).as_posix().removeprefix("crates/").replace("src/", "")


def head(title, found):
    print(f"== {title}: {len(found)}")
    for line in found:
        print("   " + line)


def by_line():
    for title, pattern in LINES:
        found = []
        for path in sources():
            for number, line in enumerate(path.read_text().splitlines(), 1):
                if re.search(pattern, line) and not line.strip().startswith("//"):
                    found.append(f"{name(path)}:{number}: {line.strip()}")
        head(title, found)


def same_names():
    where = collections.defaultdict(list)
    for path in sources():
        for match in re.finditer(r"\b(fn|struct|const) (\w+)", path.read_text()):
            where[match[0]].append(name(path))
    head("2 items of one name", [f"{n}: {' '.join(w)}" for n, w in sorted(where.items()) if len(w) > 1])


def clauses():
    where = collections.defaultdict(list)
    pattern = r"\s*(?:requires|ensures)\*?\s*\w*\s*\{ (.*) \}\s*;?$"
    for path in sources():
        for number, line in enumerate(path.read_text().splitlines(), 1):
            if match := re.match(pattern, line):
                text = re.sub(r"\b(\w+)\.(now|old|new)\b", r"\1", match[1])
                where[text].append(f"{name(path)}:{number}")
    head("5a clauses of three and more", [f"{c}: {' '.join(w)}" for c, w in where.items() if len(w) > 2])


def parameters():
    where = collections.defaultdict(set)
    for path in sources():
        for match in re.finditer(r"\bfn (\w+)(?:<[^(]*>)?\(((?:[^()]|\([^()]*\))*)\)", path.read_text()):
            given = [p.split(":")[0].strip().removeprefix("mut ") for p in match[2].split(",") if ":" in p]
            given = sorted(p for p in given if re.fullmatch(r"\w+", p) and p not in ("rt", "heap", "f"))
            for pair in itertools.combinations(given, 2):
                where[pair].add(f"{name(path)}:{match[1]}")
    found = [f"{', '.join(p)}: {' '.join(sorted(w))}" for p, w in sorted(where.items()) if len(w) > 2]
    head("5b parameters that go together in three functions and more", found)


def proofs():
    found = []
    for kind in ("Answers.antt", "Invariants.antt", "*.antt"):
        files = [p for p in TOP.glob(f"crates/*/proofs/**/{kind}")]
        lines = sum(len(p.read_text().splitlines()) for p in files)
        found.append(f"proofs/**/{kind}: {len(files)} files, {lines} lines")
    files = list(TOP.glob("crates/*/specs/*.antt"))
    found.append(f"specs/*.antt: {len(files)} files, {sum(len(p.read_text().splitlines()) for p in files)} lines")
    head("8 proofs", found)


by_line()
same_names()
clauses()
parameters()
proofs()
