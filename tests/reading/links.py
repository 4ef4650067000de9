#!/usr/bin/env python3
"""The links of the documents, and the places to which docs/CONTRACTS.md sends its reader.

    python3 tests/reading/links.py             each link that is broken; status 1 where one is
    python3 tests/reading/links.py --write     gives each call of docs/CONTRACTS.md the line where it stands now, and then looks

Of each document: a link within the repository leads to a file that is there, and to a heading or a line that this has. Of docs/CONTRACTS.md:
each call of a list under the name of a crate is a link to the line in `src/` where it's declared, with its contract. Of docs/ALLOCATING.md: each call of its first
column is declared, and each example that it names is a section of its script. It is no part of the gate.
"""
import collections
import functools
import re
import sys

from definitions import ROOT

CONTRACTS, ALLOCATING = ROOT / "docs" / "CONTRACTS.md", ROOT / "docs" / "ALLOCATING.md"
SCRIPT = "office_script"
LINK = re.compile(r"\[(?:[^\[\]]|\[[^\]]*\])*\]\(([^()\s]+)\)")
# a link that is named elsewhere in its page, and a picture
NAMED_LINK = re.compile(r"^\[[^\[\]]+\]: (\S+)$")
PICTURE = re.compile(r'\b(?:src|srcset)="([^"]+)"')
CALL_LINK = re.compile(r"\[(`[^`]+`)\]\(([^)]+)\)")
OWNER = re.compile(r"(?:impl(?:<.*?>)? (?:[\w:]+(?:<.*>)? for )?|pub trait )(\w+)")
Place = collections.namedtuple("Place", "owner name public path line")
ITEM = re.compile(r"(?:pub(?:\(\w+\))? )?(?:const )?(?:fn|struct|enum|trait|type) (\w+)")
# a word of such a list: a crate that has what is named after it, or a call
NAMED = re.compile(r"\b(off_\w+)|`([^`]+)`")


def documents():
    return sorted([*ROOT.glob("*.md"), *ROOT.glob("docs/*.md"), *ROOT.glob("tests/**/*.md"), *ROOT.glob("examples/**/*.md"), *ROOT.glob("crates/*/*.md")])


# ---- any link

def slug_of(heading):
    """The anchor of a heading, as it's made on the page."""
    text = re.sub(r"\[([^\]]*)\]\([^)]*\)", r"\1", heading).strip().lower()
    return re.sub(r"[^\w\- ]", "", text).replace(" ", "-")


@functools.cache
def lines_of(path):
    return path.read_text(encoding="utf8").split("\n")


@functools.cache
def anchors_of(path):
    """The headings of a page, and the anchors that it sets itself. Of two headings of the same words the second has a number."""
    found, count, fenced = set(), {}, False
    for line in lines_of(path):
        fenced ^= line.startswith("```")
        heading = None if fenced else re.match(r"#+ (.*)", line)
        if heading:
            slug = slug_of(heading.group(1))
            found.add(f"{slug}-{count[slug]}" if slug in count else slug)
            count[slug] = count.get(slug, 0) + 1
        found.update(re.findall(r'<a (?:id|name)="([^"]+)"', line))
    return found


def fault_of(page, target):
    """Why a link of a page is broken, or nothing."""
    if re.match(r"[a-z]+:", target):
        return None
    place, _, anchor = target.partition("#")
    path = (page.parent / place).resolve() if place else page
    if not path.exists():
        return "there is no such file"
    line = re.fullmatch(r"L(\d+)", anchor)
    if line:
        return None if int(line.group(1)) <= len(lines_of(path)) else "the file has no such line"
    if anchor and path.suffix == ".md" and anchor not in anchors_of(path):
        return "the page has no such heading"
    return None


def broken_links(page):
    """The links of a page that lead nowhere, but for those that are shown as code."""
    fenced = False
    for number, line in enumerate(lines_of(page), 1):
        fenced ^= line.startswith("```")
        if fenced or line.startswith("    "):
            continue
        shown = re.sub(r"(?<!\[)`[^`]*`(?!\])", "", line)
        for target in [*LINK.findall(shown), *NAMED_LINK.findall(line), *PICTURE.findall(line)]:
            fault = fault_of(page, target)
            if fault:
                yield f"{page.relative_to(ROOT)}:{number}: {target}: {fault}"


# ---- the calls of CONTRACTS

@functools.cache
def places_of(crate):
    """What the files of a crate declare."""
    found = []
    for path in sorted((ROOT / "crates" / crate / "src").glob("**/*.rt")):
        owner = None
        for number, line in enumerate(lines_of(path), 1):
            if line.startswith("}"):
                owner = None
            item = re.match(r"    (?! )" if owner else r"(?! )", line) and ITEM.match(line.strip())
            if item:
                found.append(Place(owner, item.group(1), item.group().startswith("pub "), path, number))
            if OWNER.match(line):
                owner = OWNER.match(line).group(1)
    return found


def place_of(crate, name, owner):
    """The file and the line of a name: of the type or the module that it says, else of the type named last, else what stands by itself."""
    front, _, word = name.rpartition("::")
    every = [place for place in places_of(crate) if place.name == word]
    if front:
        found = [place for place in every if front in (place.owner, None if place.owner else place.path.stem)]
    else:
        found = [place for place in every if place.owner == owner] or [place for place in every if not place.owner]
    return min(found, key=lambda place: (not place.public, place.path, place.line), default=None)


class Calls:
    """The lists of the page, read from above: in which crate a name is, and whose it is."""

    def __init__(self):
        self.crate, self.here, self.owner, self.faults = None, None, None, []

    def linked(self, number, line):
        """A line of a crate's list with a link for each of its calls."""
        heading = re.fullmatch(r"## ((?:off_)\w+|officed)", line)
        if heading:
            self.crate, self.here, self.owner = heading.group(1), None, None
        if line.startswith("- "):
            # what is said of the inside of a crate names no calls
            self.here = None if line.startswith("- inside: ") else self.crate
        if not self.here or not line.startswith(("- ", "  ")):
            return line
        return NAMED.sub(lambda match: self._link(number, match), CALL_LINK.sub(r"\1", line))

    def _link(self, number, match):
        crate, name = match.groups()
        if crate:
            self.here, self.owner = crate, None
            return match.group()
        place = place_of(self.here, name, self.owner)
        if not place:
            self.faults.append(f"docs/CONTRACTS.md:{number}: `{name}` isn't declared in crates/{self.here}/src")
            return match.group()
        if name[0].isupper():
            self.owner = name.split("::")[0]
        return f"[`{name}`](../{place.path.relative_to(ROOT)}#L{place.line})"


def contracts_linked():
    """The page with its links as they should be, and the calls that are nowhere."""
    calls = Calls()
    lines = [calls.linked(number, line) for number, line in enumerate(CONTRACTS.read_text(encoding="utf8").split("\n"), 1)]
    return "\n".join(lines), calls.faults


def wrong_links(linked):
    """The rows of CONTRACTS of which a call has no link, or one to another place."""
    for number, (line, right) in enumerate(zip(CONTRACTS.read_text(encoding="utf8").split("\n"), linked.split("\n")), 1):
        if line != right:
            wrong = set(CALL_LINK.findall(right)) - set(CALL_LINK.findall(line))
            told = "; ".join(f"{name} is at {target.removeprefix('../')}" for name, target in sorted(wrong))
            yield f"docs/CONTRACTS.md:{number}: {told or 'a link where no call is'}"


# ---- the calls and the examples of ALLOCATING

def lost_calls():
    """The calls of the first column that no crate has. The first one of a crate has its name in front."""
    for number, line in enumerate(lines_of(ALLOCATING), 1):
        crate, owner = None, None
        for name in re.findall(r"`([^`]+)`", line.split(" | ")[0] if line.startswith("| `") else ""):
            if name.startswith("off_"):
                (crate, _, name), owner = name.partition("::"), None
            if name and not place_of(crate, name, owner):
                yield f"docs/ALLOCATING.md:{number}: `{name}` isn't declared in crates/{crate}/src"
            if name[:1].isupper():
                owner = name.split("::")[0]


def lost_examples():
    """The examples that the page names and no script has. A name that ends with two points is a beginning."""
    text = (ROOT / "crates" / SCRIPT / "stdin").read_text(encoding="utf8")
    sections = re.findall(r"^section (.*)$", text, re.MULTILINE)
    for number, line in enumerate(lines_of(ALLOCATING), 1):
        for names in re.findall(r'\bO ((?:"[^"]+"(?:, )?)+)', line):
            for name in re.findall(r'"([^"]+)"', names):
                front = name.removesuffix("..").rstrip()
                if not any(section == name or (front != name and section.startswith(front)) for section in sections):
                    yield f'docs/ALLOCATING.md:{number}: crates/{SCRIPT}/stdin has no section "{name}"'


def main():
    linked, faults = contracts_linked()
    if "--write" in sys.argv:
        CONTRACTS.write_text(linked, encoding="utf8")
    faults += [*wrong_links(linked), *lost_calls(), *lost_examples()]
    pages = documents()
    for page in pages:
        faults += broken_links(page)
    print("\n".join([*faults, f"{len(pages)} documents, {len(faults)} faults"]))
    return 1 if faults else 0


if __name__ == "__main__":
    sys.exit(main())
