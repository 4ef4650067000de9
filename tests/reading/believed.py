#!/usr/bin/env python3
"""What a reader must believe of the top call: the words that the contract of `run` reaches, and the tables of docs/DEFINITIONS.md.

    python3 tests/reading/believed.py [-v]       the numbers, with -v those of each file; status 1 where the page isn't up to date
    python3 tests/reading/believed.py --write    writes the page's tables anew
    python3 tests/reading/believed.py --inner    the words of inner contracts too, a line a file: lines, file, words

Begins with the words of the clauses of `run` in crates/off_serve/src, and goes on to every definition of a `specs/` file that one of them names.
Beside these it counts the Rust types that they speak of, and what the contracts and laws of the traits of `run` add. Lines are counted without
comments and `use` lines. It is no part of the gate.
"""
import collections
import re
import sys

from definitions import ROOT, WORD, spec_files
from page import PAGE, Trait, inner_lines, page_of, units_of

RUN = ROOT / "crates" / "off_serve" / "src"
GHOST = re.compile(r"ghost use Rattle\.([\w.]+?)(?:\.\{([^}]*)\}| as (\w+));")
At = collections.namedtuple("At", "module word")
Rust = collections.namedtuple("Rust", "crate place")


class Text:
    """A piece of a file of Rattle, with what the file's `ghost use` lines bring."""

    def __init__(self, source, text):
        self.text, self.words, self.makers, self.brought, self.aliases = text, {}, {}, {}, {}
        for module, words, alias in GHOST.findall(source):
            if alias:
                self.aliases[alias] = module
            for word in filter(None, (part.strip() for part in words.replace("\n", " ").split(","))):
                old, _, new = word.partition(" as ")
                self.brought[new or old] = (module, old)


class Reach:
    """The definitions that texts reach, and what each of them names."""

    def __init__(self, files):
        self.files, self.uses = files, {}

    def add(self, text):
        """Adds all that a text names, and all that this names in turn; answers what the text names itself."""
        named = self._named(text, text.text)
        todo = list(named)
        while todo:
            at = todo.pop()
            if isinstance(at, At) and at not in self.uses:
                file = self.files[at.module]
                self.uses[at] = self._named(file, "\n".join(file.words[at.word].lines))
                todo += self.uses[at]
        return named

    def _named(self, file, text):
        """The definitions and the types of the code that a text of this file names."""
        named = set()
        for alias, word in re.findall(r"\b(\w+)\.(\w[\w'-]*)", text):
            if alias in file.aliases:
                named |= self._given(file.aliases[alias], word)
        words = set(WORD.findall(text))
        # `do` stands for the operator between its lines
        for word in words | ({"◌>>=◌"} if "do" in words else set()):
            own = file.makers.get(word, word)
            if own in file.words:
                named.add(At(file.module, own))
            elif word in file.brought:
                named |= self._given(*file.brought[word])
        return named

    def _given(self, module, word):
        """What a module gives under a word: a definition, perhaps of another module, or a type of the code."""
        crate, declared, place = module.partition(".specs.declared.")
        if declared:
            place = place.removesuffix(".TheVariants")
            return {Rust(crate, place)} if (ROOT / "crates" / crate).is_dir() and place != "TheConstants" else set()
        file = self.files.get(module)
        if not file:
            return set()
        own = file.makers.get(word, word)
        if own in file.words:
            return {At(module, own)}
        return self._given(*file.brought[word]) if word in file.brought else set()


def body_of(lines, first):
    """An item from its first line to its end, without comments."""
    last = first
    if not lines[first].rstrip().endswith((";", "}")):
        last = next(n for n in range(first + 1, len(lines)) if lines[n].startswith(("}", ")")))
    return [line for line in lines[first : last + 1] if line.strip() and not line.strip().startswith("//")]


def item_in(paths, form):
    """The file and the lines of the one item of this form in these files."""
    for path in paths:
        lines = path.read_text(encoding="utf8").split("\n")
        for n, line in enumerate(lines):
            if re.match(form, line):
                return path, body_of(lines, n)
    raise SystemExit(f"believed.py: no file of {len(paths)} has {form}")


def types_in(named):
    """The Rust types among what is named: the file and the lines of each."""
    found = {}
    for rust in sorted(at for at in named if isinstance(at, Rust)):
        *folders, name = rust.place.split(".")
        sources = ROOT / "crates" / rust.crate / "src"
        own = sources.joinpath(*folders).with_suffix(".rt")
        paths = [own] if own.is_file() else sorted(sources.glob("**/*.rt"))
        found[rust] = item_in(paths, rf"(?:pub(?:\(\w+\))? )?(?:enum|struct) {name}\b")
    return found


def contract_of_run():
    """The contract of `run`, and the names of the traits of which its parameters are."""
    for path in sorted(RUN.glob("*.rt")):
        source = path.read_text(encoding="utf8")
        at = source.find("\npub fn run<")
        if at >= 0:
            contract = source[at : source.index("\n{\n", at)]
            bounds = re.findall(r"\w+: ([\w +]+)", contract[: contract.index(">(")])
            return Text(source, contract), [name for bound in bounds for name in bound.split(" + ")]
    raise SystemExit(f"believed.py: no function `run` in {RUN}")


def trait_of(name, reach):
    """A trait of the outside, with what its contracts and laws name."""
    path, lines = item_in(sorted((ROOT / "crates").glob("*/src/**/*.rt")), rf"pub trait {name}\b")
    return Trait(name, path, lines, reach.add(Text(path.read_text(encoding="utf8"), "\n".join(lines))))


def main():
    files = spec_files()
    reach = Reach(files)
    contract, names = contract_of_run()
    believed = reach.add(contract).union(*reach.uses.values())
    traits = [trait_of(name, reach) for name in names]
    types = types_in(believed.union(*reach.uses.values(), *(trait.named for trait in traits)))
    units, faults = units_of(files, reach.uses, believed, types, traits)
    text, numbers = page_of(PAGE.read_text(encoding="utf8"), files, units, reach.uses)
    if "-v" in sys.argv:
        print("\n".join(f"{unit.lines():5} {unit.title}: {', '.join(row.name for row in unit.rows)}" for unit in units))
    if "--inner" in sys.argv:
        print("\n".join(inner_lines(files, reach.uses)))
    print("\n".join(numbers))
    if "--write" in sys.argv:
        PAGE.write_text(text, encoding="utf8")
    elif PAGE.read_text(encoding="utf8") != text:
        faults.append("docs/DEFINITIONS.md isn't up to date: python3 tests/reading/believed.py --write")
    for fault in faults:
        print(fault)
    return 1 if faults else 0


if __name__ == "__main__":
    sys.exit(main())
