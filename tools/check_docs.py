#!/usr/bin/env python3
"""Holds what README.md, docs/, bench/PROFILE.md and the crates' README.md name to the tree.

    tools/check_docs.py [--claims]

It tells

  - a file that isn't there: a name between backquotes that ends as a file of this repository does;
  - a name that no source or specification has: of ARCHITECTURE, CAUSES, DECISIONS and PROFILE and of README's table, each name of a
    function, type or definition between backquotes, and of a crate's README each that has `_` or `::`;
  - a name that isn't in the file or the crate that stands with it, as `NAME` in `PATH`, `NAME` (`PATH`) or `NAME` of `CRATE`;
  - a row that isn't in the crate of tests that stands before it, and a clause of CAUSES that its function or trait doesn't have;
  - a crate that ARCHITECTURE doesn't have, or has twice;
  - with --claims, a clause of README's table that none of the row's crates has.

Prints a line for each; status 1 where there is one.
"""
import pathlib
import re
import subprocess
import sys

ROOT = pathlib.Path(__file__).resolve().parent.parent
CODE = re.compile(r"`([^`\n]+)`")
PATH = re.compile(r"[\w.@-]+(/[\w.@-]+)*\.(rt|antt|md|vcl|sh|py|session|transcript|conf|png|txt|edit)")
NAME = re.compile(r"[A-Za-z_]\w*(::[A-Za-z_]\w*)*")
WORD = re.compile(r"[A-Za-z_]\w*")
# Names that aren't this repository's, or a reader's own.
OTHERS = {"clap", "wrk", "varnishd", "atomic_table", "httparse", "regex", "mio", "libc", "perf", "curl", "nginx", "memcpy", "memmove", "memset"}
OWN_FILES = {"site.vcl", "site.session", "site.transcript", "page.html"}


def read(path):
    return path.read_text(encoding="utf-8", errors="replace")


def files_of_tree():
    """The names of the files that aren't left out of the repository."""
    if (ROOT / ".git").exists():
        words = ["git", "ls-files", "--cached", "--others", "--exclude-standard"]
        return subprocess.run(words, cwd=ROOT, stdout=subprocess.PIPE, text=True, check=True).stdout.splitlines()
    return [path.relative_to(ROOT).as_posix() for path in ROOT.rglob("*") if path.is_file() and "out" not in path.parts]


class Tree:
    """The repository's files, and what its crates name."""

    def __init__(self):
        self.files = {}
        for name in files_of_tree():
            for at, byte in enumerate("/" + name):
                if byte == "/":
                    self.files.setdefault(name[at:], []).append(name)
        self.crates = {path.name for path in (ROOT / "crates").iterdir() if path.is_dir()}
        self.words, self.by_file = {}, {}
        for crate in self.crates:
            names = [it for part in ("src", "specs") for it in self.files_below(f"crates/{crate}/{part}")]
            self.words[crate] = {crate}.union(*(self.words_of(it) for it in names))
        self.all = set().union(*self.words.values())
        self.proved = None

    def files_below(self, folder):
        return [path.relative_to(ROOT).as_posix() for path in (ROOT / folder).rglob("*") if path.suffix in (".rt", ".antt")]

    def words_of(self, name):
        if name not in self.by_file:
            self.by_file[name] = set(WORD.findall(read(ROOT / name)))
        return self.by_file[name]

    def found(self, path):
        """The files that a path may mean."""
        return self.files.get(path, [])

    def knows(self, word):
        """Whether something is named so in a source or a specification, or in a lemma file of a proof."""
        if word in self.all:
            return True
        if self.proved is None:
            self.proved = set().union(*(WORD.findall(read(it)) for it in ROOT.glob("crates/*/proofs/*.antt")))
        return word in self.proved

    def words_at(self, place, crates):
        """The words of a crate, or of the files that a path means, of one of these crates where one of them has such a file."""
        if place in self.crates:
            return [self.words[place]]
        found = [name for name in self.found(place) if re.fullmatch(r"crates/.*\.(rt|antt)", name)]
        near = [name for name in found if name.split("/")[1] in crates]
        return [self.words_of(name) for name in near or found]

    def tests(self, crate):
        path = ROOT / "crates" / crate / "stdin"
        return read(path) if path.exists() else ""


def blocks_of(text):
    """A page in parts that are read alone: cells of tables, and paragraphs or points of a list, without listings."""
    text = re.sub(r"^```.*?^```", "", text, flags=re.S | re.M)
    for block in re.split(r"\n\s*\n|\n(?=\s*- |\s*\d+\. )", text):
        for line in block.split("\n") if block.startswith("|") else [block.replace("\n", " ")]:
            yield [cell.strip() for cell in re.split(r"(?<!\\)\|", line)] if line.startswith("|") else [line]


def paths(tree, page, text):
    for code in CODE.findall(text):
        if PATH.fullmatch(code) and code not in OWN_FILES and not tree.found(code) and "NAME" not in code and "CRATE" not in code:
            yield f"{page}: there is no {code}"


def names(tree, page, text):
    for code in CODE.findall(text):
        parts = WORD.findall(code) if NAME.fullmatch(code) else []
        if ("_" in code or "::" in code or code[:1].isupper() or len(parts) == 1 and len(code) > 4) and any(
            it not in OTHERS and not tree.knows(it) and not tree.found(it) for it in parts
        ):
            yield f"{page}: nothing is named {code}"


# `NAME` in `PATH`, `NAME` (`PATH`), `NAME` of `CRATE`, also with two names; and (`NAME`, `PATH`)
PAIR = re.compile(r"`([\w:]+)`(?: and `([\w:]+)`)?(?: in | \(| of | \(in )`([\w/.-]+)`(?!:)|\(`([\w:]+)`()(?:, )`([\w/.-]+)`")


def pairs(tree, page, cell):
    """Names with where they stand."""
    crates = set()
    for found in PAIR.findall(cell):
        first, second, place = found[:3] if found[2] else found[3:]
        crates |= {it for it in re.split(r"[/`]", cell) if it in tree.crates}
        where = tree.words_at(place, crates)
        for name in filter(None, (first, second)):
            last = name.split("::")[-1]
            if where and name not in tree.crates and (place in tree.crates or PATH.fullmatch(place)) and not any(last in words for words in where):
                yield f"{page}: {name} isn't in {place}"


def rows(tree, page, cell):
    for crate, quoted in re.findall(r"`(\w+)`, ((?:\"[^\"]+\"(?:,? and )?)+)", cell):
        for row in re.findall(r'"([^"]+)"', quoted):
            if crate in tree.crates and row not in tree.tests(crate):
                yield f"{page}: no row of {crate} has {row}"


def clauses(tree, page, cells):
    """The clauses that a line of CAUSES says: `CRATE::function: clause, clause`."""
    known = None
    for code in CODE.findall(cells[-2] if len(cells) > 2 else ""):
        for part in code.split("; "):
            head, colon, listed = part.partition(": ")
            known = head.split("::")[0] if "::" in head or head in tree.crates else known
            if not colon or known not in tree.crates:
                continue
            for clause in re.sub(r"\(.*?\)", "", listed).split(","):
                if clause.strip() not in tree.words[known]:
                    yield f"{page}: {known} has no clause {clause.strip()} ({part})"


def claims(tree, text):
    """README's rows of a claim, its clauses, its crates and what is only tested."""
    for line in text.splitlines():
        cells = [cell.strip() for cell in re.split(r"(?<!\\)\|", line)[1:-1]]
        crates = CODE.findall(cells[2]) if len(cells) == 4 else []
        if crates and tree.crates.issuperset(crates):
            for name in WORD.findall(" ".join(CODE.findall(cells[1]))):
                if not any(name in tree.words[crate] for crate in crates):
                    yield f"README.md: {' and '.join(crates)} have no {name}"


def layers(tree, text):
    listing = " ".join(re.findall(r"^```$(.*?)^```$", text, re.S | re.M)[:1])
    table = re.findall(r"^\| `(\w+)` \|", text.partition("| Crate of tests |")[2], re.M)
    beside = text.partition("\n## Beside the crates\n")[2]
    told = [it for it in re.findall(r"\w+", listing) if it in tree.crates] + table
    for crate in sorted(tree.crates):
        count = told.count(crate)
        if count > 1 or not count and f"`{crate}`" not in beside:
            yield f"ARCHITECTURE.md: {crate} stands {count} times among the layers and the crates of tests"


def main():
    tree, wrong = Tree(), []
    for path in [ROOT / "README.md", *sorted((ROOT / "docs").glob("*.md")), ROOT / "bench/PROFILE.md"]:
        text, page = read(path), path.name
        if page == "PROFILE.md":
            # its table of functions has the toolchain's and other libraries' names
            text = re.sub(r"^\| `.*\n", "", text, flags=re.M)
        wrong += paths(tree, page, text)
        if page in ("ARCHITECTURE.md", "CAUSES.md", "DECISIONS.md", "PROFILE.md", "README.md"):
            wrong += names(tree, page, text)
            for cells in blocks_of(text):
                wrong += [it for cell in cells for it in (*pairs(tree, page, cell), *rows(tree, page, cell))]
                wrong += clauses(tree, page, cells) if page == "CAUSES.md" else []
        if page == "ARCHITECTURE.md":
            wrong += layers(tree, text)
        if page == "README.md" and sys.argv[1:] == ["--claims"]:
            wrong += claims(tree, text)
    for path in sorted((ROOT / "crates").glob("*/README.md")):
        text, page = read(path), path.relative_to(ROOT).as_posix()
        wrong += [*paths(tree, page, text), *names(tree, page, " ".join(it for it in re.findall(r"`[^`\n]+`", text) if "_" in it or "::" in it))]
    for line in dict.fromkeys(wrong):
        print(line)
    return 1 if wrong else 0


if __name__ == "__main__":
    sys.exit(main())
