#!/usr/bin/env python3
"""Holds the tables of variables, functions and words of return of docs/VCL.md to a program, by short texts in a session's console.

    tools/vcl_tables.py [PROGRAM]     without it the one that PROGRAM names, or else crates/varn/out/varn

For each variable and subroutine there are four texts, which read, set, add to and unset it; for each function a text for each
subroutine, and for each word of return one for each form of its values. A text has to be taken where the table says so, and refused
for the kind of what may not stand there otherwise. Prints each text that goes otherwise, and counts; status 1 where one does.
"""
import os
import pathlib
import re
import subprocess
import sys

TOP = pathlib.Path(__file__).resolve().parent.parent
CLIENT = "vcl_recv vcl_hash vcl_purge vcl_hit vcl_miss vcl_pass vcl_deliver vcl_synth".split()
BACKEND = "vcl_backend_fetch vcl_backend_response vcl_backend_error".split()
SETS = {"C": CLIENT, "K": BACKEND, "R": BACKEND[1:], "D": ["vcl_deliver", "vcl_synth"], "init": ["vcl_init"]}
SETS["all but fini; a vcl_init that returns it is refused all the same"] = CLIENT + BACKEND
FRONT = (
    "vcl 4.1; import std; import cookie; import xkey; import directors; "
    'backend b { .host = "h"; } acl a { "localhost"; } sub vcl_init { new d = directors.hash(); d.add_backend(b); new r = directors.random(); } '
)
VALUES = {"STRING": '"a"', "INT": "1", "DURATION": "1s", "BOOL": "true", "BACKEND": "b", "IP": "client.ip"}
FORMS = {"": [""], "DURATION": ["(10s)"], "INT, or INT and STRING": ["(404)", '(404, "a")'], "nothing, INT, or INT and STRING": ["", "(404)", '(404, "a")']}
CALLS = {
    "hash_data": 'hash_data("a");',
    "synthetic": 'synthetic("a");',
    "ban": 'ban("obj.status == 200");',
    "regsub": 'if (regsub("a", "b", "c")) { }',
    "regsuball": 'if (regsuball("a", "b", "c")) { }',
    "xkey.purge": 'if (xkey.purge("a") > 0) { }',
    "xkey.softpurge": 'if (xkey.softpurge("a") > 0) { }',
    "module.name": 'if (std.tolower("A") == "a") { }',
    "cookie.parse": 'cookie.parse("a=1");',
    "cookie.keep": 'cookie.keep("a");',
    "cookie.filter": 'cookie.filter("a");',
    "cookie.delete": 'cookie.delete("a");',
    "cookie.set": 'cookie.set("a", "b");',
    "cookie.clean": "cookie.clean();",
    "cookie.get": 'if (cookie.get("a")) { }',
    "cookie.isset": 'if (cookie.isset("a")) { }',
    "cookie.get_string": "if (cookie.get_string()) { }",
    "x.add_backend": "d.add_backend(b, 1);",
    "x.backend": 'set req.backend_hint = d.backend("a");',
}


def rows(text, title):
    """The cells of the first table of a section."""
    lines = text.partition(f"\n## {title}")[2].partition("\n## ")[0].partition("\n### ")[0].splitlines()
    cells = [[cell.strip() for cell in line.strip("|").split("|")] for line in lines if line.startswith("| `")]
    return cells or sys.exit(f"vcl_tables: docs/VCL.md has no table {title}")


def subroutines(cell):
    """Where a cell says that something may stand."""
    if cell in SETS:
        return set(SETS[cell])
    return {name for word in re.split(r"[ ,]+", cell) if word for name in SETS.get(word, [f"vcl_{word}"])}


def code(cell):
    return re.findall(r"`([^`]+)`", cell)


def variables(text):
    for names, kind, *where in rows(text, "Variables"):
        for name in (it.replace("NAME", "X-Y") for it in code(names)):
            reads = f"if ({name} ~ a) {{ }}" if kind == "IP" else f"if ({name}) {{ }}"
            does = [reads, f"set {name} = {VALUES[kind]};", f"set {name} += {VALUES[kind]};", f"unset {name};"]
            for place, (cell, statement) in enumerate(zip(where, does)):
                for sub in CLIENT + BACKEND:
                    allowed = "sound" if place != 2 or kind == "STRING" else "7"
                    yield sub, statement, allowed if sub in subroutines(cell) else "8"


def functions(text):
    for names, _, _, where, _ in rows(text, "Functions"):
        for name in code(names)[:1] if names.startswith("`x.") else code(names):
            for sub in CLIENT + BACKEND:
                allowed = sub in subroutines(where)
                if name in CALLS and not ("req." in CALLS[name] and sub in BACKEND):
                    yield sub, CALLS[name], "sound" if allowed else "8"
                elif name not in CALLS and "module.name" not in name:
                    sys.exit(f"vcl_tables: no call of {name} stands here")


def words(text):
    taken, every = {}, {}
    for (name,), takes, where in ((code(name), takes, where) for name, takes, where in rows(text, "Words of return")):
        every.setdefault(name, []).extend(FORMS[takes])
        for sub in subroutines(where):
            taken.setdefault((sub, name), []).extend(FORMS[takes])
    for name, forms in every.items():
        for sub in CLIENT + BACKEND + ["vcl_fini"]:
            own = taken.get((sub, name), [])
            for form in dict.fromkeys(forms):
                yield sub, f"return ({name}{form});", "sound" if form in own else "7" if own else "8"


def quoted(text):
    return '"' + text.replace("\\", "\\\\").replace('"', '\\"') + '"'


def answers(program, texts):
    """Of each text `sound`, or the kind for which it is refused."""
    found = []
    for first in range(0, len(texts), 200):
        part = texts[first : first + 200]
        lines = [f"cli vcl.inline t{at} {quoted(text)}\ncli vcl.discard t{at}\n" for at, text in enumerate(part)]
        done = subprocess.run([program, "replay"], input="at 0\n" + "".join(lines) + "end\n", capture_output=True, text=True, check=False)
        said = done.stdout.splitlines()[0::2]
        if done.returncode or len(said) != len(part):
            sys.exit(f"vcl_tables: {program} ended with {done.returncode}: {done.stderr.strip()}")
        found += [(re.findall(r"VCL refused: (\d+)", line) or ["sound"])[0] for line in said]
    return found


def main(names):
    program = names[0] if names else os.environ.get("PROGRAM") or str(TOP / "crates/varn/out/varn")
    text, wrong = (TOP / "docs/VCL.md").read_text(encoding="utf-8"), 0
    for title, cases in (("variables", variables(text)), ("functions", functions(text)), ("words of return", words(text))):
        cases = list(cases)
        found = answers(program, [f"{FRONT}sub {sub} {{ {statement} }}" for sub, statement, _ in cases])
        for (sub, statement, wanted), answer in zip(cases, found):
            if answer != wanted:
                print(f"{sub}: {statement}: {answer}, and not {wanted}")
                wrong += 1
        print(f"{title}: {len(cases)} texts")
    return 1 if wrong else 0


if __name__ == "__main__":
    sys.exit(main(sys.argv[1:]))
