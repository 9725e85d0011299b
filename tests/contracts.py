"""What a proof above a crate reads of it, as text: its definitions, and its sources without the bodies of their functions. tests/wrong-bodies sums it.

What is left out can't change a verdict above, since the kit gives it to no crate above (`rattle check --help`):

- **Bodies of functions.** For a library the front end reads the interfaces of those below it, which have "public items, the private ones that they mention and
  no code". A proof cites of a function its theorem, which says that it meets its contract, and "cannot open its routine". The kit's gate goes further: it builds
  libraries of statements alone, without the proofs. Nor do bodies decide what follows without a contract: a function that may wait, start threads or not
  return has a bound in its signature, a generic one is proved of its bounds, a result names its type, and `Send`, `Sync` and `Drop` follow from fields,
  which stay. Constants are computed where they stand, and so stay whole, as do `const fn`, and functions of a trait with their bodies.
- **Functions that aren't public**, outside traits and their impls: no interface has them, unless definitions of the crate name contracts, in which case the crate counts whole.
- **The attribute `tactic` of a function**: it says by what the function's own goals are tried.
- **Proofs**, unless a crate above names them: there they count whole. `TheSendSync` of a type is not in their files: it follows from the type's fields.
- **Comments** that fill a line, and blanks between Rust's tokens.

A source is read in the layout of `rt fmt`, to which the kit's gate holds it. One that isn't surely read so counts whole.
"""

import os
import re

# As the kit reads them: Rust's tokens, and those of the language of clauses, in which a brace may stand in a string or a comment.
RUST = re.compile(
    r"""//[^\n]*|/\*|[bc]?r(#*)".*?"\1|[bc]?"(?:[^"\\]|\\.)*"|'(?=\\)(?:[^'\\\n]|\\[^\n])*'|''|'[^\n\\]'|'[A-Za-z_]\w*'?|r#[A-Za-z_]\w*|\w+|\s+|.""",
    re.S | re.A,
)
CLAUSE = re.compile(r"""{-|(?<![^ \n(){}.;,@"»])--[^\n]*|"(?:[^"\\\n]|\\[^\n])*"|[^-{};"]+|.""", re.S)
HEAD = re.compile(r"(?P<public>pub(?P<within>\([^)]*\))? )?(?P<const>const (?=fn ))?(?:(?P<kind>fn|struct|enum|impl|trait|mod|use|const|static|type|ghost|macro_rules)\b|(?P<call>\w+!))")
CLAUSE_HEAD = re.compile(r"(?:(?:requires|ensures)\*?(?: \w+)?|ghost \w+:) $")
OPENING, CLOSING = ("(", "[", "{"), (")", "]", "}")


class Unsure(Exception):
    """A source that isn't surely read."""


class Source:
    """A source, read item by item: `kept` is what a proof above reads of it."""

    def __init__(self, text):
        self.text, self.at, self.kept = text, 0, []

    def token(self):
        """The next token, none at the end."""
        found = RUST.match(self.text, self.at)
        if not found:
            return ""
        if found[0] == "/*":
            raise Unsure("a comment that may hold others")
        self.at = found.end()
        return found[0]

    def items(self, inside):
        """Reads items to the end, or to the brace that closes what they stand in."""
        while self.at < len(self.text):
            begin, token = self.at, self.token()
            if token.isspace() or token.startswith("//"):
                continue
            self.at = begin
            if token == "}":
                return
            self.item(inside)

    def item(self, inside):
        """Reads one item, with its attributes."""
        attributes = "".join(self.attributes())
        begin, found = self.at, HEAD.match(self.text, self.at)
        if not found:
            raise Unsure(f"no item: {self.text[begin:begin + 40]}")
        kind = found["kind"] or found["call"]
        self.at = found.end()
        if kind == "ghost":
            self.clause_until(";")
            self.keep(attributes + self.text[begin : self.at])
        elif kind == "fn":
            self.function(begin, found, inside, attributes)
        elif kind in ("impl", "trait", "mod"):
            self.block(begin, kind, attributes)
        else:
            self.until_end(kind)
            self.keep(attributes + plain(self.text[begin : self.at]))

    def attributes(self):
        """Gives the attributes that stand here, but for `tactic`."""
        while RUST.match(self.text, self.at)[0] == "#":
            begin, depth = self.at, 0
            while depth or self.text[self.at - 1] != "]" or self.at == begin:
                token = self.token()
                if not token:
                    raise Unsure("an attribute without an end")
                depth += (token in OPENING) - (token in CLOSING)
            words = self.text[begin : self.at]
            if not words.startswith(("#[tactic(", "#![tactic(")):
                yield words + "\n"
            self.blanks()

    def blanks(self):
        """Passes over blanks and comments."""
        while re.match(r"\s|//", self.text[self.at : self.at + 2]):
            self.token()

    def keep(self, text):
        self.kept.append(text.strip())

    def indent(self, at):
        """What stands before this place in its line."""
        return self.text[self.text.rfind("\n", 0, at) + 1 : at]

    def until(self, *ends):
        """Goes to one of these tokens, outside of all brackets."""
        depth = 0
        while True:
            begin, token = self.at, self.token()
            if not token:
                raise Unsure("an item without an end")
            if depth == 0 and token in ends:
                self.at = begin
                return token
            depth += (token in OPENING) - (token in CLOSING)

    def until_end(self, kind):
        """Goes behind a semicolon, or behind a braced block where that ends such an item."""
        ends = (";",) if kind in ("use", "const", "static", "type") else (";", "{")
        if self.until(*ends) == "{":
            self.braced()
        else:
            self.at += 1

    def braced(self):
        """Goes behind the brace that closes the one that stands here, and holds the layout to it."""
        opening, begin = self.at, self.text.rfind("\n", 0, self.at) + 1
        indent = re.match(" *", self.text[begin:])[0]
        self.at += 1
        self.until("}")
        if self.at != opening + 1 and self.indent(self.at) != indent:
            raise Unsure("a brace closes at another place than its line begins")
        self.at += 1

    def clause_until(self, end):
        """Goes behind this token of a clause's language, outside of braces."""
        depth = 0
        while True:
            found = CLAUSE.match(self.text, self.at)
            if not found or found[0] == "{-":
                raise Unsure("a clause without an end, or with a comment that may hold others")
            self.at = found.end()
            depth += (found[0] == "{") - (found[0] == "}")
            if depth == 0 and found[0] == end:
                return

    def function(self, begin, found, inside, attributes):
        """Reads a function, and keeps its head where a proof above may read it."""
        indent, has_clause = self.indent(begin), False
        if indent.strip():
            raise Unsure("a function begins within a line")
        while (end := self.until("{", ";")) == "{" and CLAUSE_HEAD.search(self.text[begin : self.at]):
            self.clause_until("}")
            has_clause = True
        head, opening = self.text[begin : self.at], self.at
        if end == "{":
            if has_clause and self.indent(self.at) != indent:
                raise Unsure("a body begins within a line that has a clause")
            self.braced()
            if self.text[opening : opening + 2] != "{}" and self.text.find(f"\n{indent}}}", opening) + 1 + len(indent) != self.at - 1:
                raise Unsure("a body ends at another place than its layout says")
        else:
            self.at += 1
        if inside == "trait" or found["const"] or end == ";":
            self.keep(attributes + self.text[begin : self.at])
        elif inside == "trait's impl" or (found["public"] and not found["within"]):
            self.keep(attributes + head)

    def block(self, begin, kind, attributes):
        """Reads an impl, a trait or a module, with the items in it."""
        if self.until("{", ";") == ";":
            self.at += 1
            return self.keep(attributes + plain(self.text[begin : self.at]))
        head, indent, opening = self.text[begin : self.at], self.indent(begin), self.at
        self.keep(attributes + head + "{")
        self.at += 1
        self.items("trait's impl" if kind == "impl" and re.search(r"\bfor\b", head) else kind)
        if self.at >= len(self.text) or (self.text[opening : opening + 2] != "{}" and self.indent(self.at) != indent):
            raise Unsure("an impl, a trait or a module ends at another place than its line begins")
        self.at += 1
        self.keep("}")


def plain(text):
    """The tokens without comments and with a blank where there are some; as it stands, where it may hold a string or a clause."""
    if re.search(r"""["']|#!?\[|/\*|\b(ghost|requires|ensures)\b""", text):
        return text
    return " ".join(re.sub(r"//.*", "", text).split())


def of_source(text):
    """What a proof above reads of a source, and whether that is less than all."""
    source = Source(text)
    try:
        source.items("mod")
        if source.at < len(text):
            raise Unsure("a brace that closes nothing")
    except (Unsure, TypeError):
        return text, False
    return "\n".join(source.kept), True


def of_definitions(text):
    """Definitions without the comments that fill a line, unless some may hold others."""
    return text if "{-" in text else re.sub(r"(?m)^ *--(?: .*)?\n", "", text)


def without_comments(path, text):
    """A file of a crate without the comments that fill a line, unless these may stand in a text or hold others."""
    if path.endswith(".antt"):
        return of_definitions(text)
    lines = [it for it in text.split("\n") if not re.match(r" *//", it)]
    is_unsure = "/*" in text or re.search(r"""\br#*\"""", text) or any(len(re.findall(r'(?<!\\)"', re.sub(r"""'\\?"'""", "", it))) % 2 for it in lines)
    return text if is_unsure else "\n".join(lines)


def files_of(folder, part):
    """The files of a part of a crate, by their paths in it, in order."""
    found = {}
    for at, _, names in os.walk(f"{folder}/{part}"):
        for path in (os.path.relpath(f"{at}/{name}", folder) for name in names):
            with open(f"{folder}/{path}", encoding="utf-8", newline="") as text:
                found[path] = text.read()
    return dict(sorted(found.items()))


def contracts_of(folder, name, names_proofs):
    """What a proof above reads of a crate, as one text; with its proofs, where a crate above names these."""
    definitions, sources = files_of(folder, "specs"), files_of(folder, "src")
    if re.search(rf"\bRattle\.{name}\.specs\.contracts\b", "\n".join([*definitions.values(), *sources.values()])):
        parts = {**definitions, **sources}
    else:
        parts = {path: of_definitions(text) for path, text in definitions.items()}
        parts |= {path: of_source(without_comments(path, text))[0] for path, text in sources.items()}
    if names_proofs:
        parts |= files_of(folder, "proofs")
    return "".join(f"== {path}\n{text}\n" for path, text in parts.items())
