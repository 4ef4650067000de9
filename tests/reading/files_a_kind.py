#!/usr/bin/env python3
"""How many files a new kind of row meets, and a new mirror of the tables: counted in the tree that the script lies in.

    python3 tests/reading/files_a_kind.py [--lists]

For each kind of row: the files of src/, specs/ and proofs/ that name its key, its row or its command, their crates, and the lists that have a
line for it. A list is a function or a definition with cases for five kinds or more, or for four `Put` commands or more. For each mirror: the
files of off_office that name it. `--lists` prints each list with its place. It is no part of the gate.
"""
import collections
import pathlib
import re
import statistics
import sys

CRATES = pathlib.Path(__file__).resolve().parents[2] / "crates"
KINDS = ["Site", "Subscriber", "AddOn", "Modem", "Class", "Pool", "Lease", "Held", "Batch", "Hub", "PoolHub", "DevicePool", "Device"]
MIRRORS = {
    "counts": "counts", "pools' names of files": "kept", "agreements": "agreements", "free addresses": "runs", "free addresses of devices": "device_runs",
    "users": "users", "devices' leases": "devices",
}
FEWEST_KINDS, FEWEST_PUTS = 5, 4
VARIANTS = re.compile(r"^\s*(?:pub )?(?:ghost )?use Rattle\.off_\w+\.specs\.declared\.\w+\.(Key|Row|Command)\.TheVariants(?:\.\{([^}]*)\}| as (\w+));?$", re.M)
USES = re.compile(r"^\s*(?:pub )?(?:ghost )?use [^\n]*$", re.M)
RUST_CASE = re.compile(r"\b(Key|Row|Command)::(\w+)")


def kind_of(owner, variant):
    """The kind that a variant of a key, a row or a command is of, or None."""
    name = variant.removeprefix("Put") if owner == "Command" else variant
    if owner == "Command" and name == variant:
        return None
    return name if name in KINDS else None


class Source:
    """A file, with what its `use` lines bring of the variants of keys, rows and commands."""

    def __init__(self, path):
        self.path = path
        self.crate = path.relative_to(CRATES).parts[0]
        self.text = path.read_text(encoding="utf8")
        self.names, self.aliases = {}, {}
        for owner, words, alias in VARIANTS.findall(self.text):
            if alias:
                self.aliases[alias] = owner
            for word in filter(None, (part.strip() for part in words.split(","))):
                old, _, new = word.partition(" as ")
                self.names[(new or old).strip()] = (owner, old.strip())
        self.body = USES.sub("", self.text)

    def named_in(self, text):
        """The kinds that a text names, as pairs of what is named (a key, a row, a command) and the kind."""
        found = set()
        for owner, variant in RUST_CASE.findall(text):
            found.add((owner, kind_of(owner, variant)))
        for alias, owner in self.aliases.items():
            for variant in re.findall(rf"\b{alias}\.(\w+)", text):
                found.add((owner, kind_of(owner, variant)))
        if self.names:
            for word in re.findall(r"(?<![\w.:])[A-Z]\w*", text):
                if word in self.names:
                    owner, variant = self.names[word]
                    found.add((owner, kind_of(owner, variant)))
        return {pair for pair in found if pair[1]}

    def kinds(self):
        """The kinds that the file names."""
        return {kind for _, kind in self.named_in(self.body)}

    def definitions(self):
        """Each function or definition with the parts of it that say its cases."""
        return rust_cases(self.body) if self.path.suffix == ".rt" else antt_cases(self.body)

    def lists(self):
        for name, cases in self.definitions():
            named = self.named_in(cases)
            puts = {kind for owner, kind in named if owner == "Command"}
            kinds = {kind for owner, kind in named if owner != "Command"}
            if len(puts) >= FEWEST_PUTS or len(kinds) >= FEWEST_KINDS:
                yield name, puts | kinds


def rust_cases(text):
    """Each `fn` with the patterns of its arms."""
    heads = list(re.finditer(r"^[ \t]*(?:pub(?:\(\w+\))? )?fn (\w+)", text, flags=re.M))
    for head, end in zip(heads, [*(head.start() for head in heads[1:]), len(text)]):
        name, part = head.group(1), text[head.start():end]
        arms = re.findall(r"^([^\n]*?(?:\n\s*\|[^\n]*?)*?)=>", part, flags=re.M)
        yield name, "\n".join(arms + re.findall(r"matches!\(([^)]*\)?[^)]*)\)", part))


def antt_cases(text):
    """Each definition with what stands left of the `=` of its clauses, clauses of one name together."""
    heads = collections.defaultdict(list)
    for line in text.split("\n"):
        clause = re.match(r"^\s{0,4}([a-z_][\w'-]*) (.*?) =(?: |$)", line)
        if clause and " : " not in clause.group(2):
            heads[clause.group(1)].append(clause.group(2))
        elif (case := re.match(r"^\s+\| (.*?) ↦", line)):
            heads["elim"].append(case.group(1))
    return [(name, "\n".join(cases)) for name, cases in heads.items()]


def sources():
    for part in ("src", "specs", "proofs"):
        for path in sorted(CRATES.glob(f"*/{part}/**/*")):
            if path.suffix in (".rt", ".antt"):
                yield Source(path)


def report_kinds(files, show_lists):
    met, lists = collections.defaultdict(list), []
    for source in files:
        for kind in source.kinds():
            met[kind].append(source)
        lists += [(source, name, kinds) for name, kinds in source.lists()]
    print(f"{'kind':12} files crates lists")
    for kind in KINDS:
        print(f"{kind:12} {len(met[kind]):5} {len({source.crate for source in met[kind]}):6} {sum(kind in kinds for _, _, kinds in lists):5}")
    counts = sorted(len(met[kind]) for kind in KINDS)
    print(f"files a kind: {counts[0]} to {counts[-1]}, median {statistics.median(counts):g}")
    print(f"lists of kinds: {len(lists)} in {len({source.path for source, _, _ in lists})} files of {len({source.crate for source, _, _ in lists})} crates")
    if show_lists:
        for source, name, kinds in lists:
            print(f"  {source.path.relative_to(CRATES)} {name}: {len(kinds)}")


def report_mirrors(files):
    office = [source for source in files if source.crate == "off_office"]
    print("mirror (files of off_office that name it)")
    for mirror, word in MIRRORS.items():
        named = re.compile(rf"\b{word}\b")
        print(f"  {mirror} ({word}): {sum(bool(named.search(source.text)) for source in office)}")


def main():
    files = list(sources())
    report_kinds(files, "--lists" in sys.argv[1:])
    report_mirrors(files)


if __name__ == "__main__":
    main()
