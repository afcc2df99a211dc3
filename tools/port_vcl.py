#!/usr/bin/env python3
"""Lists what of VCL files for Varnish 7 isn't here or means something else, with what to write in its place.

  tools/port_vcl.py FILE..
  tools/port_vcl.py --places FILE..    the places alone

A line for each place: the file, the line, what stands there, and what docs/VCL.md has for it in the tables of its section 'From
Varnish 7 to here'; then how many lines of each file are touched. The exit status is 1 where something was found. It looks at
tokens, not at meanings: whether the text that comes of it is sound is told by contrib/check-vcl, and what it does by a session.
"""
import collections
import ipaddress
import pathlib
import re
import sys

DOCUMENT = pathlib.Path(__file__).resolve().parent.parent / "docs/VCL.md"
CODE = re.compile(r"`([^`]*)`")
NAME = r"[A-Za-z][A-Za-z0-9_.-]*"
TOKEN = re.compile(
    r'(?P<skip>\s+|\#[^\n]*|//[^\n]*|/\*.*?\*/|C\{.*?\}C)'
    r'|(?P<string>\{".*?"\}|""".*?"""|"[^"\n]*")'
    r'|(?P<number>\d+(?:\.\d+)?(?:ms|[smhdwy]|[KMGT]?B)?(?![A-Za-z0-9_]))'
    rf'|(?P<name>{NAME})'
    r'|(?P<sign>[=!<>]=|!~|&&|\|\||\+=|-=|\*=|/=|.)',
    re.S,
)
HOLDERS = ("req", "req_top", "bereq", "beresp", "resp", "obj", "client", "server", "local", "remote", "sess", "storage")
FIELD = re.compile(r"(req|bereq|beresp|resp|obj)\.http\.\S+")
MODULES = ("std", "cookie", "directors", "xkey")
FUNCTIONS = {f"std.{name}" for name in ("tolower", "toupper", "strlen", "integer")}
FUNCTIONS |= {f"cookie.{name}" for name in ("parse", "set", "get", "isset", "delete", "keep", "filter", "clean", "get_string")}
FUNCTIONS |= {f"directors.{name}" for name in ("round_robin", "fallback", "random", "hash")}
SEARCHES = ("~", "!~")
# The forms of patterns, each with the words of the document's row that it belongs to.
PATTERNS = [
    (r"\(\?<?[=!]", "look-around"),
    (r"(?<!\\)(?:\\\\)*\\[1-9]", "back references"),
    (r"\(\?>", "atomic groups"),
    (r"[*+?}]\+", "possessive repetitions"),
    (r"(?<!\\)(?:\\\\)*\\[ZhHRNKGXCQ]", "`\\Z`"),
    (r"(?<!\\)(?:\\\\)*\\(?:e|c.|0)", "`\\e`"),
    (r"(?<!\\)(?:\\\\)*\\v", "`\\v`"),
    (r"(?<!\\)\{(?!\d+(?:,\d*)?\})(?<!\\[pPx]\{)", "braces that are no count"),
    (r"\[\^?\]?[^]\\]*\[(?!:)", "`[` within a class"),
    (r"\[[^]]*\\[wdsWDS]-[^]]", "`[\\w-.]`"),
    (r"\[[^]]*(?:&&|--|~~)[^]]*\]", "`&&`, `--` and `~~`"),
    (r"\(\?(?:#|J|\||'|\d)", "`(?#A)`"),
    (r"\(\?R", "`(?R)`"),
]

Token = collections.namedtuple("Token", "kind text line")


class Document:
    """The tables of docs/VCL.md: what is here, and what to write for what isn't."""

    def __init__(self, path):
        text = path.read_text(encoding="utf-8")
        here, _, rest = text.partition("\n## From Varnish 7 to here\n")
        port = rest.partition("\n## ")[0]
        self.rows = [(left, right) for left, right, *_ in self.cells(port)]
        self.by_code = {code: row for row in self.rows for code in CODE.findall(row[0])}
        self.here = {code for cells in self.cells(here) for code in CODE.findall(" ".join(cells))} | FUNCTIONS

    @staticmethod
    def cells(text):
        """The cells of each row of the tables, without their heads."""
        lines = text.split("\n")
        for line, after in zip(lines, lines[1:] + [""]):
            if line.startswith("| ") and not after.startswith("|---"):
                yield [cell.strip().replace("\\|", "|") for cell in re.split(r"(?<!\\)\|", line)[1:-1]]

    def row(self, words):
        """The row whose left cell has these words."""
        found = next((row for row in self.rows if words in row[0]), None)
        return found or sys.exit(f"port_vcl: no row of docs/VCL.md has {words}")

    def row_of(self, name):
        """The row of a name, or of what it is one of, as `storage.*`."""
        if name in self.by_code:
            return self.by_code[name]
        wider = (code for code in self.by_code if code.endswith(".*") and name.startswith(code[:-1]))
        return self.by_code.get(next(wider, None))


def tokens_of(text):
    """The tokens of a text, and the lines at which inline C begins."""
    tokens, inline, line = [], [], 1
    for found in TOKEN.finditer(text):
        if found.lastgroup != "skip":
            tokens.append(Token(found.lastgroup, found.group(), line))
        elif found.group().startswith("C{"):
            inline.append(line)
        line += found.group().count("\n")
    return tokens, inline


def value(token):
    """What a string says."""
    return re.sub(r'^(\{"|"""|")|("\}|"""|")$', "", token.text)


class Finder:
    """Goes over the tokens of one text, and notes what isn't here."""

    def __init__(self, document, text):
        self.document = document
        self.tokens, inline = tokens_of(text)
        self.found = [(line, "inline C", document.row("inline C")[1]) for line in inline]
        self.objects = {after.text for token, after in zip(self.tokens, self.tokens[1:]) if token.text == "new"}

    def at(self, place):
        return self.tokens[place] if 0 <= place < len(self.tokens) else Token("end", "", 0)

    def words(self, place, *texts):
        """Whether these tokens stand here."""
        return all(self.at(place + step).text == text for step, text in enumerate(texts))

    def note(self, place, what, row):
        self.found.append((self.at(place).line, what, row[1]))

    def find(self):
        """What was noted, in the order of its lines."""
        for place, (item, depth) in enumerate(self.items()):
            if item in ("backend", "probe"):
                self.attribute(place, item)
            elif item == "acl":
                self.acl(place, depth)
            else:
                self.code(place, item if depth else "")
        return sorted(self.found)

    def items(self):
        """For each token the item that it is of, as `acl` or the name of a subroutine, and how many braces are open there."""
        item, depth = "", 0
        for place, token in enumerate(self.tokens):
            if depth == 0 and token.text in ("import", "include", "backend", "probe", "acl", "sub"):
                item = self.at(place + 1).text if token.text == "sub" else token.text
            depth -= token.text == "}"
            yield item, depth
            depth += token.text == "{"

    def code(self, place, item):
        """A token of a subroutine, or of what stands beside the items with braces."""
        token = self.at(place)
        if token.kind == "name":
            self.name(place, item)
        elif token.kind == "number":
            self.number(place)
        elif token.text in ("*", "/", "*=", "/="):
            self.note(place, token.text, self.document.row("REAL, BYTES"))
        elif token.text in SEARCHES:
            self.search(place + 1)

    # ---- names

    def name(self, place, item):
        text, before, after = self.at(place).text, self.at(place - 1).text, self.at(place + 1).text
        if item == "vcl_init" and self.begins_statement(place) and not self.fits_init(place):
            self.note(place, f"{text} in vcl_init", self.document.row("other statements in"))
        if text == "include":
            self.note(place, text, self.document.row("`include"))
        elif text == "import":
            self.module(place)
        elif text == "return":
            self.leave(place)
        elif text == "unset" and not FIELD.fullmatch(after):
            self.note(place, f"unset {after}", self.document.row("`unset`"))
        elif before in ("sub", "call"):
            self.subroutine(place)
        elif before in ("import", "new"):
            pass
        elif item == "vcl_init" and text.endswith(".backend"):
            self.note(place, text, self.document.row("a director within"))
        elif after == "(":
            self.called(place)
        elif after == "=" and before in ("(", ","):
            self.note(place, f"{text} = ..", self.document.row("arguments by name"))
        elif text == "now" or "." in text and text.split(".")[0] in HOLDERS:
            self.variable(place)

    def subroutine(self, place):
        name, before = self.at(place).text, self.at(place - 1).text
        for row in (self.document.row("sub vcl_pipe"), self.document.row("vcl_req_host")):
            if f"`{name}`" in row[0] or f"`sub {name}`" in row[0]:
                self.note(place, f"{before} {name}", row)

    def begins_statement(self, place):
        return self.at(place - 1).text in ("{", ";", "}")

    def fits_init(self, place):
        return self.at(place).text in ("new", "return") or self.at(place).text.endswith(".add_backend")

    def module(self, place):
        name = self.at(place + 1).text
        row = self.document.row_of(f"import {name}")
        if row or name not in MODULES or self.words(place + 2, "from"):
            self.note(place, f"import {name}", row or self.document.row("`import NAME`"))

    def leave(self, place):
        """A return, with its word."""
        word = self.at(place + 2).text
        if self.words(place + 1, ";"):
            self.note(place, "return;", self.document.row("`return;`"))
        elif word in ("pipe", "vcl") or (word == "fail" and self.words(place + 3, "(")):
            self.note(place, f"return ({word})", self.document.row(f"`return ({word}"))

    def variable(self, place):
        name, after = self.at(place).text, self.at(place + 1).text
        row = self.document.row_of(name)
        is_compared = after in ("==", "!=") and self.at(place + 2).kind == "string"
        if name == "client.ip" and is_compared and self.at(place - 1).text != "+":
            self.note(place, f"client.ip {after} ..", self.document.row("`client.ip =="))
        elif row or name not in self.document.here and not FIELD.fullmatch(name):
            self.note(place, name, row or ("", "a variable that docs/VCL.md doesn't have"))

    def called(self, place):
        name = self.at(place).text
        if name in ("regsub", "regsuball"):
            self.search(self.second_argument(place + 1))
        elif name in ("ban", "std.ban"):
            self.ban(place)
        elif name == "synth" and re.fullmatch(r"[1-9]\d{3,}", self.at(place + 2).text):
            self.note(place, f"synth({self.at(place + 2).text})", self.document.row("`synth` with a status"))
        row = self.function_row(name)
        if row:
            self.note(place, name, row)

    def function_row(self, name):
        """The row of a function that isn't here, or None."""
        holder, _, method = name.rpartition(".")
        if holder in self.objects:
            return self.document.row_of("." + method)
        if name in self.document.here or not holder:
            return None
        row = self.document.row_of(name)
        return row or self.document.row("rest of `std`" if holder == "std" else "`import NAME`")

    # ---- values

    def number(self, place):
        text = self.at(place).text
        weight = self.at(place - 1).text == "," and re.fullmatch(r"\d+\.0*", text)
        is_real = re.fullmatch(r"\d+\.\d+", text) and not weight and self.at(place - 1).text != "vcl"
        if is_real or text.endswith("B"):
            self.note(place, text, self.document.row("REAL, BYTES"))

    def second_argument(self, place):
        """Where the second argument begins of a call whose parenthesis opens here."""
        depth = 0
        for at in range(place, len(self.tokens)):
            depth += (self.at(at).text == "(") - (self.at(at).text == ")")
            if depth == 1 and self.at(at).text == ",":
                return at + 1
        return len(self.tokens)

    def search(self, place):
        """A pattern, where it is a string."""
        if self.at(place).kind != "string":
            return
        pattern = value(self.at(place))
        for form, words in PATTERNS:
            found = re.search(form, pattern)
            if found:
                self.note(place, f"{found.group()} in a pattern", self.document.row(words))
        if self.at(place + 1).kind == "string" or (self.words(place + 1, "+") and self.at(place + 2).kind == "string"):
            self.note(place, "a pattern of several strings", self.document.row("a pattern of several strings"))

    def ban(self, place):
        at = place + 1
        while at < len(self.tokens) and self.at(at).text != ";":
            if self.at(at).kind == "string" and '"' in value(self.at(at)):
                self.note(at, "quotes in a ban", self.document.row("a `ban` with quotes"))
                return
            at += 1

    # ---- backends and ACLs

    def attribute(self, place, item):
        name = "." + self.at(place).text
        if self.at(place - 1).text != "." or self.at(place).kind != "name":
            return
        row = self.document.row_of(name)
        if row:
            self.note(place, name, row)
        elif name not in self.document.here:
            self.note(place, name, ("", f"an attribute of a {item} that docs/VCL.md doesn't have"))

    def acl(self, place, depth):
        token = self.at(place)
        if depth == 0 and token.text in ("+", "-"):
            self.note(place, token.text + self.at(place + 1).text, self.document.row("flags of an ACL"))
        elif token.text == "(" or token.kind == "string" and not is_address(value(token)):
            self.note(place, f"{token.text} in an ACL", self.document.row("host names, IPv6"))


def is_address(text):
    """Whether an ACL's entry may have this address."""
    try:
        return text == "localhost" or bool(ipaddress.IPv4Address(text))
    except ValueError:
        return False


def main(names):
    alone = names[:1] == ["--places"]
    names = names[alone:]
    if not names or names[0].startswith("-"):
        print(__doc__, file=sys.stderr)
        return 2
    document, all_found = Document(DOCUMENT), 0
    for name in names:
        text = pathlib.Path(name).read_text(encoding="utf-8", errors="replace")
        found = Finder(document, text).find()
        for line, what, write in found:
            print(f"{name}:{line}: {what}" if alone else f"{name}:{line}: {what}: {write}")
        written = sum(bool(line.strip()) for line in text.splitlines())
        if not alone:
            print(f"{name}: {len(found)} places in {len({line for line, *_ in found})} of {written} lines")
        all_found += len(found)
    return 1 if all_found else 0


if __name__ == "__main__":
    sys.exit(main(sys.argv[1:]))
