#!/usr/bin/env python3
"""Keeps examples/vcl, examples/sessions and the rows of the tests that run them one thing.

  tools/examples.py            tells what has come apart, and fails where something has
  tools/examples.py write      writes the sessions' lines that load a VCL, and the rows, from the files
  tools/examples.py line FILE  prints the line of a session that loads the VCL of a file

A session NAME.session loads examples/vcl/NAME.vcl by the line that `line` prints. It is a row of replay_tests,
whose wanted answer is NAME.transcript, and the VCL is a row of the crate of tests that has the line PROGRAMS_MARK,
unless it imports a module of which that crate has no functions. Transcripts are written by hand.
"""
import pathlib
import re
import sys

TOP = pathlib.Path(__file__).resolve().parent.parent
VCL, SESSIONS = TOP / "examples/vcl", TOP / "examples/sessions"
RUNS = TOP / "crates/replay_tests"
RUN_MARK = "@ example="
PROGRAMS_MARK = "# the files of examples/vcl, each on one line without its comments"
PROGRAM_WORDS = "program "
# A module that the table of functions of that crate of tests hasn't.
LACKING = re.compile(r"^import cookie;", re.M)
# The longest transcript that replay_tests tells whole.
SHORT = 5000


def quoted(text):
    """A text as a session has it in quotes."""
    named = {'"': '\\"', "\\": "\\\\", "\n": "\\n", "\r": "\\r", "\t": "\\t"}
    pieces = {byte: chr(byte) if 32 <= byte <= 126 else f"\\x{byte:02x}" for byte in range(256)}
    pieces.update((ord(byte), piece) for byte, piece in named.items())
    return '"' + "".join(pieces[byte] for byte in text.encode()) + '"'


def loading(path):
    """The line that loads a VCL under the name of its file."""
    return f"cli vcl.inline {path.stem} {quoted(path.read_text())}"


def with_loading(session, path):
    """A session with its line for a VCL as the file has it."""
    line = re.compile(rf"^cli vcl\.inline {re.escape(path.stem)} .*$", re.M)
    if not line.search(session):
        sys.exit(f"{path.stem}.session: no line loads {path.stem}.vcl")
    return line.sub(lambda _: loading(path), session)


def run_rows(name, session, transcript):
    """A session as rows of replay_tests, where `^`, backquotes and a last `$` mean something else, and what is wanted."""
    lines = [line.replace("^", "\\x5e").replace("`", "\\x60") for line in session.splitlines()]
    if any(line.endswith("$") or line.startswith(("@", "= ")) for line in lines):
        sys.exit(f"{name}.session: a line begins with @ or =, or ends with a dollar sign")
    if len(transcript.encode()) > SHORT:
        sys.exit(f"{name}.transcript: over {SHORT} bytes")
    said = [f"= {line}" for line in ("0 0 0", *transcript.splitlines())]
    return "\n".join([f"{RUN_MARK}{name} replay", *lines, *said]) + "\n"


def program_row(text):
    """A VCL on one line, and what the test says of it: thirteen items are built in."""
    lines = [line.strip() for line in text.splitlines()]
    row = PROGRAM_WORDS + " ".join(line for line in lines if line and not line.startswith("#"))
    items, backends, directors = (
        len(re.findall(form, text, re.M))
        for form in ("^(import|backend|acl|probe|sub) ", "^backend ", "^  new ")
    )
    return f"{row} => items {13 + items}, backends {backends}, directors {directors}\n"


def parted(text, mark):
    """A text in two, the second of which begins with the line that begins with a mark."""
    at = ("\n" + text).find("\n" + mark)
    return (text, "") if at < 0 else (text[:at], text[at:])


def with_programs(text, rows):
    """The rows of a crate of tests with these for the VCLs, behind their mark and before the others behind it."""
    front, old = parted(text, PROGRAMS_MARK)
    others = [line for line in old.splitlines(keepends=True)[1:] if not line.startswith(PROGRAM_WORDS)]
    return front + PROGRAMS_MARK + "\n" + rows + "".join(others)


def count_of_runs(text):
    """How many rows replay_tests has: those of one line, and one for each run."""
    front, runs = parted(text, "@")
    return sum(not line.startswith("#") for line in front.splitlines()) + len(re.findall("^@", runs, re.M))


def count_of_programs(text):
    return sum(line != "" and not line.startswith("#") for line in text.splitlines())


def programs_crate():
    """The crate of tests that has the rows for the VCLs."""
    for rows in sorted(TOP.glob("crates/*_tests/stdin")):
        if PROGRAMS_MARK in rows.read_text(errors="replace").splitlines():
            return rows.parent
    sys.exit(f"no crate of tests has the line: {PROGRAMS_MARK}")


def wanted():
    """Each file that is made, with what it should have."""
    made = {}
    names = sorted(path.stem for path in VCL.glob("*.vcl"))
    for folder, kind in ((SESSIONS, "session"), (SESSIONS, "transcript")):
        if sorted(path.stem for path in folder.glob(f"*.{kind}")) != names:
            sys.exit(f"examples/sessions: not one {kind} for each VCL")
    runs, programs = "", ""
    for name in names:
        vcl, path = VCL / f"{name}.vcl", SESSIONS / f"{name}.session"
        made[path] = with_loading(path.read_text(), vcl)
        runs += run_rows(name, made[path], (SESSIONS / f"{name}.transcript").read_text())
        if not LACKING.search(vcl.read_text()):
            programs += program_row(vcl.read_text())
    made[RUNS / "stdin"] = parted((RUNS / "stdin").read_text(), RUN_MARK)[0] + runs
    made[RUNS / "stdout"] = f"{count_of_runs(made[RUNS / 'stdin'])} rows\n"
    rows = programs_crate() / "stdin"
    made[rows] = with_programs(rows.read_text(), programs)
    made[rows.parent / "stdout"] = f"{count_of_programs(made[rows])} rows\n"
    made[TOP / "crates/varn/stdin"] = (TOP / "examples/console.session").read_text()
    return made


def main(words):
    if words[:1] == ["line"] and len(words) == 2:
        print(loading(pathlib.Path(words[1])))
        return
    if words not in ([], ["write"]):
        sys.exit(__doc__)
    apart = {path: text for path, text in wanted().items() if path.read_text() != text}
    for path, text in apart.items():
        print(f"{path.relative_to(TOP)} {'is written' if words else 'is not as the examples have it'}")
        if words:
            path.write_text(text)
    if apart and not words:
        sys.exit(1)


main(sys.argv[1:])
