#!/usr/bin/env python3
"""Checks that every must-fail edit still fits: each `old:` text stands exactly once in the file that the edit names.

The edits of a crate stand in crates/NAME/must-fail/ and in edits/NAME/. Where an edit has several pairs, they are applied in
order. Prints each edit that doesn't fit, and how many do, or with --quiet only the former; exits 1 if one doesn't.
"""
import sys
from pathlib import Path

ROOT = Path(__file__).resolve().parent.parent


def edits():
    """Each edit with the folder of its crate."""
    for path in sorted(ROOT.glob("crates/*/must-fail/*.edit")):
        yield path, path.parent.parent
    for path in sorted(ROOT.glob("edits/*/*.edit")):
        yield path, ROOT / "crates" / (named(path) or path.parent.name)


def named(path):
    """The crate that an edit of edits/rows/ names, which no clause refuses and rows do."""
    for line in path.read_text(encoding="utf-8").splitlines():
        if line.startswith("crate: "):
            return line.removeprefix("crate: ").strip()
    return None


def fault_of(path, crate):
    """What is wrong with an edit, or None."""
    text = old = None
    for number, line in enumerate(path.read_text(encoding="utf-8").splitlines(), 1):
        key, _, value = line.partition(": ")
        if key == "file":
            source = crate / value
            if not source.is_file():
                return f"line {number}: no file {value}"
            text = source.read_text(encoding="utf-8")
        elif key == "old":
            old = value.strip()
            if text is None or text.count(old) != 1:
                times = 0 if text is None else text.count(old)
                return f"line {number}: {times} times: {old}"
        elif key == "new":
            if old is None:
                return f"line {number}: no old text"
            text = text.replace(old, value.strip())
            old = None
        elif line.strip() and key not in ("crate", "tests"):
            return f"line {number}: not understood: {line}"
    return "no old text" if text is None else None


def main():
    good = bad = 0
    for path, crate in edits():
        fault = fault_of(path, crate)
        if fault is None:
            good += 1
        else:
            bad += 1
            print(f"{path.relative_to(ROOT)}: {fault}")
    if bad or "--quiet" not in sys.argv[1:]:
        print(f"{good} edits fit, {bad} don't")
    return 1 if bad else 0


if __name__ == "__main__":
    sys.exit(main())
