#!/usr/bin/env python3
"""Checks that crates.txt lists for each crate what the crate names and no more: a crate that is listed costs each proof
time, used or not, and a crate's stamp is counted once for each path to it; one that is named and not listed, the prover
refuses, but only once it comes to it.

A crate is named where its sources, specs or proofs have `NAME::` or `Rattle.NAME.` outside of comments, and no module of
its own has that name. Prints each crate that is listed and not named, or named and not listed; exits 1 if there is one.
"""
import re
import sys
from pathlib import Path

ROOT = Path(__file__).resolve().parent.parent
COMMENT = re.compile(r"^\s*(//|--).*$", re.MULTILINE)
NAME = re.compile(r"\b(\w+)::|\bRattle\.(\w+)\.", re.ASCII)


def listed():
    """Each crate with the crates that are listed for it."""
    for line in (ROOT / "crates.txt").read_text(encoding="utf-8").splitlines():
        head, colon, names = line.partition("#")[0].partition(":")
        if colon:
            yield head.split()[0], names.split()


def names_in(crate):
    """What the crate's files name outside of comments."""
    files = [path for part in ("src", "specs", "proofs") for path in (ROOT / "crates" / crate / part).rglob("*.*t*")]
    texts = (COMMENT.sub("", path.read_text(encoding="utf-8")) for path in files if path.is_file())
    return {found[1] or found[2] for text in texts for found in NAME.finditer(text)}


def modules_of(crate):
    """The names of the crate's own modules."""
    return {path.stem for path in (ROOT / "crates" / crate / "src").rglob("*.rt")}


def main():
    crates, wrong = list(listed()), []
    every = {crate for crate, _ in crates}
    for crate, names in crates:
        named = names_in(crate)
        wrong += [f"{crate} doesn't name {name}" for name in names if name not in named]
        others = sorted(every - {crate, *names, *modules_of(crate)})
        wrong += [f"{crate} names {name}, and it isn't listed there" for name in others if name in named]
    for line in wrong:
        print(f"crates.txt: {line}")
    return 1 if wrong else 0


if __name__ == "__main__":
    sys.exit(main())
