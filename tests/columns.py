#!/usr/bin/env python3
"""Lines that are too long in the library crates: tests/columns.py

Definitions (specs/) and the clauses of contracts stand within 100 columns, proofs within 120. What the layout keeps on one line does not
count: an import, an attribute, and a text alone on its line. It lists each line that is longer; the status is 0 where there is none."""

import os
import re
import sys
from collections.abc import Iterator
from pathlib import Path

DEFINITIONS, PROOFS, CLAUSES = 100, 120, 100
CRATES = Path(__file__).resolve().parent.parent / "crates"
KEPT = re.compile(r'(pub |ghost )*use |#!?\[|\(*"(\\.|[^"\\])*"\)*$')
CLAUSE = re.compile(r"(ensures|requires|invariant|ghost)\b(?! use )")


def clauses(text: str) -> Iterator[tuple[int, str]]:
    """Each line of a clause, with its number: from its word to the brace that closes it."""
    depth, within = 0, False
    for number, line in enumerate(text.splitlines(), 1):
        within = within or bool(CLAUSE.match(line.strip()))
        if within:
            yield number, line
            depth += line.count("{") - line.count("}")
            within = depth > 0
            depth = max(depth, 0)


def too_long() -> Iterator[str]:
    for folder, ending, limit in (("specs", "antt", DEFINITIONS), ("proofs", "antt", PROOFS), ("src", "rt", CLAUSES)):
        for path in sorted(CRATES.glob(f"sq_*/{folder}/**/*.{ending}")):
            text = path.read_text(encoding="utf-8")
            for number, line in clauses(text) if folder == "src" else enumerate(text.splitlines(), 1):
                if len(line) > limit and not KEPT.match(line.strip()):
                    yield f"{os.path.relpath(path)}:{number}: {len(line)} columns, of {limit}"


def main() -> int:
    found = list(too_long())
    for line in found:
        print(line)
    return 1 if found else 0


if __name__ == "__main__":
    sys.exit(main())
