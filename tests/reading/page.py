"""The tables of docs/DEFINITIONS.md: the words that must be believed, in reading order. Words of inner contracts are only counted there."""
import collections
import re

from definitions import ROOT

PAGE = ROOT / "docs" / "DEFINITIONS.md"
BEGINS, ENDS = "<!-- begins: by tests/reading/believed.py --write -->\n", "<!-- ends -->\n"

# The part of a crate, or of a file by its crate and name, is that of the first form; what has none is the office's own.
OFFICE, FORMS, COMMANDS, JOBS, LAWS = "the office", "forms and formats", "command line", "jobs and drill", "laws"
TYPES, TRAITS, INNER = "types", "traits", "inner contracts"
PARTS = (
    (COMMANDS, r"off_book/Words"),
    (LAWS, r"off_(\w+_)?(laws|runs)|off_isolation"),
    (JOBS, r"off_\w*jobs?|off_drill_\w+"),
    (FORMS, r"off_(base|tlv|mic|tree|docsis|http|dhcp|packets|rows|clerk|clerk_\w+|import|import_rules)"),
)
# of two crates that may stand next, that of the earlier part does
TURN = (FORMS, OFFICE, COMMANDS, LAWS, JOBS)

NUMBER = r"(?:[A-Z](?:\.\d+)*|\d+(?:\.\d+)*)\b"
PLACE = rf",? \(?(?:(?:sections?|annex(?:es)?|figure) {NUMBER}(?:(?:, and |, | and | to ){NUMBER})*|appendix)"
STANDARD = re.compile(rf"(?:RFC \d+|CM-SP-MULPIv3\.1|CANN-DHCP-Reg|IEEE 802(?:\.\d+)?)(?:{PLACE})*|this project's profile")

Row = collections.namedtuple("Row", "name lines part standard")
Trait = collections.namedtuple("Trait", "name path lines named")


class Unit:
    """What is read in one place: the words of a file, the types of one, or a trait; with the places that it needs."""

    def __init__(self, crate, title, part, comment, rows, needs):
        self.crate, self.title, self.part, self.rows, self.needs = crate, title, part, rows, needs
        self.about, self.standard = first_sentence(comment), standards_in(comment)

    def lines(self):
        return sum(row.lines for row in self.rows)


def part_of(crate, name):
    return next((part for part, form in PARTS if re.fullmatch(form, crate) or re.fullmatch(form, f"{crate}/{name}")), OFFICE)


def first_sentence(comment):
    return re.match(r"(.*?(?<!\.)\.(?= |$))?", comment).group().replace("|", "\\|")


def standards_in(comment):
    """What a comment cites, each once."""
    return "; ".join(dict.fromkeys(match.group().replace("(", "") for match in STANDARD.finditer(comment)))


def place_of(path):
    return str(path.relative_to(ROOT / "crates"))


def title_of(named, files, types):
    """Where a definition or a type of the code stands."""
    return place_of(types[named][0]) if named in types else place_of(files[named.module].path)


def spec_units(files, uses, believed, types):
    """The files of `specs/` of which words are reached."""
    for module, file in files.items():
        part = part_of(file.crate, "/".join(file.place.with_suffix("").parts[2:]))
        reached = {at.word: at for at in uses if at.module == module}
        rows = [
            Row(name, len(word.lines), part if reached[name] in believed else TRAITS, standards_in(word.comment))
            for name, word in file.words.items()
            if name in reached
        ]
        needs = {title_of(named, files, types) for at in reached.values() for named in uses[at]}
        if rows:
            yield Unit(file.crate, place_of(file.path), part, file.head, rows, needs)


def in_order(keys, needs, rank):
    """The keys, each behind those that it needs; where several may stand next, the one of least rank does."""
    left, placed = set(keys), []
    while left:
        free = [key for key in left if not needs[key] & left - {key}] or left
        placed.append(min(free, key=rank))
        left.remove(placed[-1])
    return placed


def types_named(crate, path, lines, types):
    """The types that are spoken of and that a type's own text names: of its crate, or of another by the file's `use` lines."""
    homes = {}
    for home, words in re.findall(r"^use (\w+)(?:::\w+)*::\{?([\w, ]+)\}?;", path.read_text(encoding="utf8"), re.MULTILINE):
        homes.update({word: home.replace("crate", crate) for word in words.split(", ")})
    named = {(homes.get(word, crate), word) for word in re.findall(r"\w+", "\n".join(lines))}
    return {other for other in types if (other.crate, type_name(other)) in named}


def type_name(rust):
    return rust.place.split(".")[-1]


def type_units(types, believed):
    """The files of the code of which types are spoken of."""
    needs = {rust: types_named(rust.crate, path, lines, types) for rust, (path, lines) in types.items()}
    for path in dict.fromkeys(path for path, _ in types.values()):
        own = in_order([rust for rust in types if types[rust][0] == path], needs, type_name)
        rows = [Row(type_name(rust), len(types[rust][1]), TYPES if rust in believed else TRAITS, "") for rust in own]
        places = {place_of(types[other][0]) for rust in own for other in needs[rust]}
        yield Unit(own[0].crate, place_of(path), TYPES, "Types of the code.", rows, places)


def trait_units(traits, files, types):
    """The traits of the outside: their contracts and their laws."""
    for trait in traits:
        place, row = place_of(trait.path), Row(trait.name, len(trait.lines), TRAITS, "")
        needs = {title_of(named, files, types) for named in trait.named}
        yield Unit(place.split("/")[0], f"{place}, {trait.name}", TRAITS, "The trait's contracts and laws.", [row], needs)


def units_of(files, uses, believed, types, traits):
    """All that must be believed, in an order in which each word stands behind those that it uses; and where it doesn't."""
    every = [*spec_units(files, uses, believed, types), *type_units(types, believed), *trait_units(traits, files, types)]
    units = {unit.title: unit for unit in every}
    crates, needs, turn = collections.defaultdict(list), collections.defaultdict(set), {}
    for unit in units.values():
        crates[unit.crate].append(unit)
        needs[unit.crate] |= {units[title].crate for title in unit.needs}
    for crate, own in crates.items():
        turn[crate] = min(TURN.index(unit.part) if unit.part in TURN else len(TURN) for unit in own)
    needs.update({title: unit.needs for title, unit in units.items()})
    order = []
    for crate in in_order(list(crates), needs, lambda crate: (turn[crate], crate)):
        titles = [unit.title for unit in crates[crate]]
        order += in_order(titles, needs, lambda title: ("/specs/" in title, title))
    place = {title: n for n, title in enumerate(order)}
    forward = [f"{title} uses {other}, which stands behind it" for title in order for other in units[title].needs if place[other] > place[title]]
    return [units[title] for title in order], forward


def number(count):
    return f"{count:,}"


def sums_of(units, inner):
    """How many words and lines each part has, the parts that `run` reaches, the types and the traits, and the words of inner contracts."""
    sums = collections.Counter()
    for row in [*(row for unit in units for row in unit.rows), *inner]:
        sums[row.part, "words"] += 1
        sums[row.part, "lines"] += row.lines
    told = [(f"{part[0].upper()}{part[1:]}", (part,)) for part in (OFFICE, FORMS, COMMANDS, JOBS, LAWS)]
    told.append(("**All that the contract of `run` reaches**", TURN))
    told.append(("Rust types of which these speak", (TYPES,)))
    told.append(("The traits of the outside, and the words that only they reach", (TRAITS,)))
    told.append(("Words of inner contracts", (INNER,)))
    return [(name, *(sum(sums[part, what] for part in parts) for what in ("words", "lines"))) for name, parts in told]


def inner_words(files, uses):
    """The words that neither `run` nor the traits reach, by file."""
    for module, file in files.items():
        rows = [Row(name, len(word.lines), INNER, "") for name, word in file.words.items() if (module, name) not in uses]
        if rows:
            yield file, rows


def believed_table(units):
    yield "| Word | Lines | Part | Public standard |\n|---|--:|---|---|\n"
    for unit in units:
        about = f": {unit.about}" if unit.about else ""
        yield f"| **`{unit.title}`**{about} | **{unit.lines()}** | {unit.part} | {unit.standard} |\n".replace("|  |", "| |")
        for row in unit.rows:
            yield f"| `{row.name}` | {row.lines} | | {row.standard} |\n".replace("|  |", "| |")


def inner_lines(files, uses):
    """The words of inner contracts, a line a file."""
    for file, rows in inner_words(files, uses):
        yield f"{sum(row.lines for row in rows):5} {place_of(file.path)}: {', '.join(row.name for row in rows)}"


def page_of(old, files, units, uses):
    """The page with its tables written anew, and the numbers as they are printed."""
    inner = list(inner_words(files, uses))
    sums = sums_of(units, [row for _, rows in inner for row in rows])
    parts = ["| Part | Words | Lines |\n|---|--:|--:|\n"]
    parts += [f"| {name} | {number(words)} | {number(lines)} |\n" for name, words, lines in sums]
    parts += ["\n## What the office does\n\n", *believed_table(units)]
    head, _, rest = old.partition(BEGINS)
    _, _, tail = rest.partition(ENDS)
    numbers = [f"{lines:6} lines, {words:5} words: {name.strip('*')}" for name, words, lines in sums]
    return head + BEGINS + "\n" + "".join(parts) + "\n" + ENDS + tail, numbers
