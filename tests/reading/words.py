#!/usr/bin/env python3
"""Words that two files of `specs/` define: one word is to mean one thing.

    python3 tests/reading/words.py

Prints each word that has more than one definition, with the files; then each file of specs/, proofs/ or src/ where two of a word come
together, by its `use` lines or beside a definition of its own, and each word for which tests/reading/WORDS.md gives no reason. Ends with status 1
where there is one of these. It is no part of the gate.
"""
import collections
import re
import sys

from definitions import ROOT as TOP, spec_files

ROOT = TOP / "crates"
USE = re.compile(r"\buse Rattle\.(\w+)\.specs\.([\w.]+)\.\{([^}]*)\}")


def place_of(path):
    return str(path.relative_to(ROOT)).replace("/specs/", "/").removesuffix(".antt")


def shared_words():
    """The files that define a word, for each that two define."""
    places = collections.defaultdict(list)
    for file in spec_files().values():
        for word in file.words.values():
            if word.public:
                places[word.name].append(place_of(file.path))
    return {word: where for word, where in sorted(places.items()) if len(where) > 1}


def meetings(shared):
    """The files in which two definitions of a word come together."""
    found = []
    for path in sorted([*ROOT.glob("*/specs/**/*.antt"), *ROOT.glob("*/proofs/**/*.antt"), *ROOT.glob("*/src/**/*.rt")]):
        brought = collections.defaultdict(set)
        for crate, module, words in USE.findall(path.read_text(encoding="utf8")):
            for word in words.split(","):
                brought[word.split(" as ")[0].strip()].add(f"{crate}/{module.replace('.', '/')}")
        for word, where in shared.items():
            both = set(where) & (brought[word] | {place_of(path)})
            if len(both) > 1:
                found.append(f"{path.relative_to(ROOT)}: {word} of {' and '.join(sorted(both))}")
    return found


def reasons():
    """The words for which the page gives a reason."""
    page = (TOP / "tests" / "reading" / "WORDS.md").read_text(encoding="utf8")
    rows = page[page.index("| Words | Why |"):].split("\n\n")[0].split("\n")[2:]
    return {word for row in filter(None, rows) for word in re.findall(r"`([^`]+)`", row.split("|")[1])}


def main():
    shared = shared_words()
    for word, where in shared.items():
        print(f"{word}: {', '.join(where)}")
    given = reasons()
    faults = meetings(shared) + [f"{word}: no reason in tests/reading/WORDS.md" for word in shared if word not in given]
    faults += [f"{word}: tests/reading/WORDS.md has a reason, and it is defined once" for word in sorted(given - set(shared))]
    print("\n".join(faults + [f"{len(shared)} words, {len(faults)} faults"]))
    return 1 if faults else 0


if __name__ == "__main__":
    sys.exit(main())
