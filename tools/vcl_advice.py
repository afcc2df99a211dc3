#!/usr/bin/env python3
"""Holds what a refusal says of a name of Varnish's to docs/VCL.md.

    tools/vcl_advice.py            checks that the rows of crates/diagnostics/src/varnish_names.rt are those of the document; exits 1 if not
    tools/vcl_advice.py --write    writes them anew

A row has the names of one row of the tables 'Variables', 'Statements and words', 'Functions and modules' and 'Backends, probes and
ACLs' of the section 'From Varnish 7 to here', `: `, and what to write in their place. A name that ends in `*` stands for all that
begin so.
"""
import pathlib
import re
import sys

import port_vcl

SOURCE = port_vcl.DOCUMENT.parent.parent / "crates/diagnostics/src/varnish_names.rt"
NAME = re.compile(r"\.?[a-z][a-z0-9_]*(\.[a-z0-9_]+)*(\.\*)?")
SECTIONS = ("Variables", "Statements and words", "Functions and modules", "Backends, probes and ACLs")
# Words of the tables that no text is refused for as unknown names.
WORDS = ("unset", "import", "synth", "ban", "vcl_init", "vcl_fini")
TABLE = re.compile(r'(const ADVICE: &str = ")(.*?)(";$)', re.S | re.M)


def section(text, name):
    return text.partition(f"\n### {name}\n")[2].partition("\n### ")[0].partition("\n## ")[0]


def names_in(cell, here):
    """The names in a cell for which a text is refused."""
    found = [re.sub(r"^(sub|import) ", "", it) for it in port_vcl.CODE.findall(cell)]
    return [it for it in found if NAME.fullmatch(it) and it not in here and it not in WORDS]


def rows():
    """The rows, in the document's order; where a name stands in several, the first counts."""
    text, document = port_vcl.DOCUMENT.read_text(encoding="utf-8"), port_vcl.Document(port_vcl.DOCUMENT)
    seen, found = set(), []
    for name in SECTIONS:
        for left, right in document.cells(section(text, name)):
            names = [it for it in names_in(left, document.here) if it not in seen]
            seen.update(names)
            if names and not right.startswith("these are read"):
                found.append(" ".join(names) + ": " + right.replace("`", ""))
    return found


def main():
    source = SOURCE.read_text(encoding="utf-8")
    wanted = "\n".join(rows()).replace("\\", "\\\\").replace('"', '\\"')
    if sys.argv[1:] == ["--write"]:
        SOURCE.write_text(TABLE.sub(lambda found: found[1] + wanted + found[3], source, count=1), encoding="utf-8")
        return 0
    found = TABLE.search(source)
    if not found or found[2] != wanted:
        print(f"vcl_advice: the rows of {SOURCE.name} aren't those of docs/VCL.md: tools/vcl_advice.py --write")
        return 1
    return 0


if __name__ == "__main__":
    sys.exit(main())
