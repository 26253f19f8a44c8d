#!/usr/bin/env python3
"""Functions and relations that take too much at once, in the library crates: tests/sizes.py

It lists each function with more than eight parameters (`self` is one) or four type parameters, and each relation of the specs with more
than eight arguments, or with three in a row that are called by single letters, as `a b c`; what is implied is none. What belongs together
goes as one value with names: a struct, a record, a trait with associated types. It first counts two texts of its own. The status is 0
where nothing takes too much."""

import itertools
import os
import re
import string
import sys
from collections.abc import Iterator
from pathlib import Path

PARAMETERS, TYPES, ARGUMENTS = 8, 4, 8
# So many arguments in a row that are called by single letters say nothing of what each is.
LETTERS, ROW = string.ascii_lowercase, 3
CRATES = Path(__file__).resolve().parent.parent / "crates"
# The brackets of a function's head, and those of a definition's, where `<` is a relation.
HEADS = ("([{<", ")]}>")
DEFINITIONS = ("([{", ")]}")

# What is counted in these texts: of each function parameters and type parameters, of each relation arguments, and of each of its
# equations the longest row of letters.
CODE = """
fn none() {}
// fn not_this(a: u8) {}
pub(crate) fn two<'a, R: Wait, const N: usize, F: Fn(u8, u8) -> Result<u8, ()>>(
    &mut self,
    pairs: &'a [(u8, Vec<u8>)], // a, b
) -> Result<(u8, u8), Failed>
"""
COUNTED = [("none", 0, 0), ("two", 2, 2)]
SPECS = """
use A.{IsThis : Type}
-- IsThat : A → Type 0
pub record IsOne {A : Type 0} (a b : List A)
    (few : length a < 3) : Type 0 where
  pub same : a ≡ b
abbrev pub IsTwo (a : ℕ) : (b c : ℕ) → List (ℕ → ℕ) → Type 0
IsTwo a b c d = a < b
IsTwo {A = A} (suc a) b
    c d =
    b < c
data IsThree : Type 0 where
abbrev pub none : ℕ → ℕ → ℕ → ℕ
none a b c = a
"""
RELATED = [
    ("IsOne", ["a", "b", "few"]), ("IsTwo", ["a", "b", "c", ""]), ("IsTwo", ["a", "b", "c", "d"]), ("IsTwo", ["", "b", "c", "d"]), ("IsThree", []),
]


def behind(text: str, at: int, brackets: tuple[str, str]) -> int:
    """The place behind the bracket that closes the one at a place. The `>` of an arrow closes none."""
    depth = 0
    while True:
        depth += change(text, at, brackets)
        at += 1
        if depth == 0:
            return at


def change(text: str, at: int, brackets: tuple[str, str]) -> int:
    """1 where a bracket opens, and -1 where one closes."""
    letter = text[at]
    if letter in brackets[0]:
        return 1
    return -1 if letter in brackets[1] and not (letter == ">" and text[at - 1] in "-=") else 0


def split(text: str, cut: str, brackets: tuple[str, str]) -> list[str]:
    """The parts of a text between the cuts that stand in no bracket."""
    parts, depth, begun, at = [], 0, 0, 0
    while at < len(text):
        depth += change(text, at, brackets)
        if depth == 0 and text.startswith(cut, at):
            parts.append(text[begun:at])
            begun = at + len(cut)
        at += 1
    return [part.strip() for part in [*parts, text[begun:]] if part.strip()]


def functions(text: str) -> Iterator[tuple[str, int, int]]:
    """Name, parameters and type parameters of each function."""
    text = re.sub(r"//.*", "", text)
    for found in re.finditer(r"\bfn (\w+)\s*([<(])", text):
        at, types = found.end() - 1, []
        if found[2] == "<":
            end = behind(text, at, HEADS)
            types = [word for word in split(text[at + 1 : end - 1], ",", HEADS) if not word.startswith(("'", "const "))]
            at = text.index("(", end - 1)
        yield found[1], len(split(text[at + 1 : behind(text, at, HEADS) - 1], ",", HEADS)), len(types)


def names_of(binder: str) -> list[str]:
    """The arguments of a binder `(a b : T)`; one that is implied, `{a : T}`, has none, and one without a name is empty."""
    named = re.match(r"\(([^():]+) :", binder)
    return [] if binder.startswith("{") else named[1].split() if named else [""]


def relations(text: str) -> Iterator[tuple[str, list[str]]]:
    """Name and arguments of each definition whose value is a type, and of each of its equations."""
    text, seen = re.sub(r"--.*", "", text), set()
    for found in re.finditer(r"^((?:abbrev |unfoldable |pub |record |data )*)([^\s:(){}]+)(.*(?:\n[ \t].*)*)", text, re.M):
        if found[2] in seen and not found[1]:
            left = split(" ".join([*found[0].split(), ""]), " = ", DEFINITIONS)[0]
            patterns = [word for word in split(left, " ", DEFINITIONS)[1:] if not word.startswith("{")]
            yield found[2], [word if word.isalpha() else "" for word in patterns]
            continue
        rest, names = found[3].split(" where")[0].lstrip(), []
        while rest.startswith(("(", "{")):
            end = behind(rest, 0, DEFINITIONS)
            names += names_of(rest[:end])
            rest = rest[end:].lstrip()
        if rest.startswith(": "):
            *taken, value = split(rest[2:], "→", DEFINITIONS) or [""]
            if value.startswith("Type"):
                seen.add(found[2])
                yield found[2], names + [name for binder in taken for name in names_of(binder)]


def letters(names: list[str]) -> str:
    """The first row of arguments that are called by single letters, where one is too long."""
    for at in range(len(names) - ROW + 1):
        row = list(itertools.takewhile(lambda name: len(name) == 1 and name in LETTERS, names[at:]))
        if len(row) >= ROW:
            return " ".join(row)
    return ""


def too_much() -> Iterator[str]:
    for path in sorted(CRATES.glob("sq_*/src/**/*.rt")):
        for name, parameters, types in functions(path.read_text(encoding="utf-8")):
            if parameters > PARAMETERS or types > TYPES:
                yield f"{os.path.relpath(path)}: {name}: {parameters} parameters, {types} type parameters"
    for path in sorted(CRATES.glob("sq_*/specs/**/*.antt")):
        for name, arguments in relations(path.read_text(encoding="utf-8")):
            if len(arguments) > ARGUMENTS:
                yield f"{os.path.relpath(path)}: {name}: {len(arguments)} arguments"
            if row := letters(arguments):
                yield f"{os.path.relpath(path)}: {name}: arguments {row}"


def main() -> int:
    if (counted := list(functions(CODE))) != COUNTED:
        sys.exit(f"sizes: it counts {counted}, and not {COUNTED}")
    if (related := list(relations(SPECS))) != RELATED:
        sys.exit(f"sizes: it counts {related}, and not {RELATED}")
    if (row := letters(["x", "a", "", "d", "g", "h", "e"])) != "d g h e":
        sys.exit(f"sizes: it finds the letters {row}, and not d g h e")
    found = list(dict.fromkeys(too_much()))
    for line in found:
        print(line)
    return 1 if found else 0


if __name__ == "__main__":
    sys.exit(main())
