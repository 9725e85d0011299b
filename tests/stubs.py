"""Sources in which functions are stubs, and others stand twice, for tests/wrong-bodies.

For a caller, a check takes a function by its contract alone; and it proves the function too. For a wrong body the proofs of the called functions say nothing,
and they cost more than the body's own. So beside a wrong body all functions that may be stubs are stubs: the body is `unreachable!()`, and the proof is a hole.
A check with `--allow-holes` takes what has a hole "by its signature, so each declaration that cites it is checked to its end" (`rattle check --help`).

A check names a method by the module of its type, which may be another than the method's (`homes_of`).

These are no stubs: functions of traits and of their impls, methods whose type isn't surely found, `const fn`, tests, empty bodies, and each function of a source
that isn't surely read.
"""

import functools
import os
import re
import shutil
from dataclasses import dataclass

import contracts


@dataclass
class Function:
    """A function of a source: its path in its crate, where it begins with its attributes, and where its body stands, braces included."""

    path: str
    begin: int
    opening: int
    end: int
    # Whether it may be a stub.
    is_free: bool


class Functions(contracts.Source):
    """A source, and its functions that have a body."""

    def __init__(self, text, module, homes):
        super().__init__(text)
        self.within, self.start, self.braces, self.functions, self.homes = list(module), 0, None, [], homes

    def item(self, inside):
        self.start = self.at
        super().item(inside)

    def braced(self):
        opening = self.at
        super().braced()
        self.braces = (opening, self.at)

    def function(self, begin, found, inside, attributes):
        name, start, self.braces = re.match(r" (\w+)", self.text[found.end() :])[1], self.start, None
        super().function(begin, found, inside, attributes)
        if self.braces:
            above = self.above(inside)
            is_free = above is not None and not found["const"] and "#[test]" not in attributes
            self.functions.append(Function("::".join([*(above or self.within), name]), start, *self.braces, is_free))

    def above(self, inside):
        """The path in which a check names a function that stands here; none if that isn't sure."""
        if inside == "mod" or (inside == "impl" and re.search(rf"\b(?:struct|enum) {self.within[-1]}\b", self.text)):
            return self.within
        home = self.homes.get(self.within[-1]) if inside == "impl" else None
        return None if home is None else [*home, self.within[-1]]

    def block(self, begin, kind, attributes):
        named = re.match(r"(?:pub(?:\([^)]*\))? )?mod (\w+)|impl(?:<[^{]*?>)? (\w+)", self.text[begin:])
        self.within.append((named[1] or named[2]) if named else "")
        super().block(begin, kind, attributes)
        self.within.pop()


def module_of(file):
    """The module of a file of a crate's sources, by its names."""
    return [] if file == "src/lib.rt" else re.sub(r"/mod$", "", file[len("src/") : -len(".rt")]).split("/")


def homes_of(texts):
    """The types that a crate declares once, outside inline modules, each with its module, by the texts of the crate's sources."""
    found = [(name, tuple(module_of(file))) for file, text in texts.items() for name in re.findall(r"^(?:pub(?:\([^)]*\))? )?(?:struct|enum) (\w+)", text, re.M)]
    names = [name for name, _ in found]
    return frozenset((name, module) for name, module in found if names.count(name) == 1)


@functools.cache
def functions_of(file, text, homes=frozenset()):
    """The functions of a file of a crate's sources that have a body, by the crate's `homes_of`; none if it isn't surely read."""
    module = module_of(file)
    if module[:1] == ["tests"]:
        return []
    source = Functions(text, module, dict(homes))
    try:
        source.items("mod")
    except (contracts.Unsure, TypeError):
        return []
    return source.functions


def with_stubs(file, text, homes, stays):
    """A file in which all functions are stubs that may be stubs, but for those of which `stays` is true, by path and body; and the paths of the stubs."""
    parts, at, paths = [], 0, []
    for it in functions_of(file, text, homes):
        body = text[it.opening : it.end]
        if not it.is_free or body == "{}" or stays(it.path, body):
            continue
        indent = re.match(" *", text[text.rfind("\n", 0, it.end) + 1 :])[0]
        parts += [text[at : it.opening], f"{{\n{indent}    unreachable!()\n{indent}}}"]
        at = it.end
        paths.append(it.path)
    return "".join([*parts, text[at:]]), paths


def put_holes(folder, crate, paths):
    """Puts a hole in the place of the proof of each of these functions, in a folder with the crate's proofs."""
    for path in paths:
        *above, own = path.split("::")
        place = os.path.join(folder, "proofs", *above)
        shutil.rmtree(f"{place}/{own}", ignore_errors=True)
        shutil.rmtree(f"{place}/+{own}", ignore_errors=True)
        os.makedirs(f"{place}/{own}")
        with open(f"{place}/{own}/Proof.antt", "w", encoding="utf-8") as file:
            file.write(f"use Rattle.{crate}.proofs.{'.'.join([*above, own])}.Statement.{{statement}}\n\npub {own}_spec : {{M : Type 1}} → statement M\n{own}_spec = ?\n")


def twin(text, it, name, changes):
    """A function of a text once more, under another name, with each second in the place of each first in its body; none if a first isn't there once, or the function
    calls itself."""
    own, begin = it.path.split("::")[-1], it.opening - it.begin
    whole = text[it.begin : it.end]
    header, body = whole[:begin], whole[begin:]
    if header.count(f"fn {own}") != 1 or re.search(rf"(?<![\w:.])(?:Self::|self\.)?{own}\(", body):
        return None
    for old, new in changes:
        if body.count(old) != 1:
            return None
        body = body.replace(old, new)
    indent = re.match(" *", text[text.rfind("\n", 0, it.begin) + 1 :])[0]
    return f"\n\n{indent}{header.replace(f'fn {own}', f'fn {name}')}{body}"


def copy_proofs(folder, crate, path, name):
    """Gives the twin of a function the function's proofs, in a folder with the crate's proofs."""
    *above, own = path.split("::")
    place = os.path.join(folder, "proofs", *above)
    if not os.path.isdir(f"{place}/{own}"):
        return
    shutil.copytree(f"{place}/{own}", f"{place}/{name}")
    for at, _, files in os.walk(f"{place}/{name}"):
        for file in files:
            with open(f"{at}/{file}", encoding="utf-8") as it:
                text = it.read()
            module = f"Rattle.{crate}.proofs.{'.'.join(above)}{'.' if above else ''}"
            text = re.sub(rf"{re.escape(module + own)}\b(?=\.)", module + name, text)
            if re.search(rf"{re.escape(module + own)}\b", text):
                raise ValueError(f"{at}/{file} still names the proofs of {path}")
            with open(f"{at}/{file}", "w", encoding="utf-8") as it:
                it.write(text)
