#!/usr/bin/env python3
"""docs/FAULTS.md holds every answer of the sources that isn't plain success, and nothing else.

Each public enum of the office's crates has a row for each of its variants there, or is named as a value that is no answer; each struct that stands as the
error of a `Result` has a row. Each call that a row names is a function of the sources, each example is a section of a script in crates/, and each file is
there. It reads files alone.
"""
import os
import re
import sys

from harness import ROOT, check, failures, text_of

CRATES = os.path.join(ROOT, "crates")
# These run examples, and are no part of the office.
ASIDE = {"office_script", "format_questions", "clerk_questions", "office_stage", "script_words", "office_tests", "lease_tests", "plain_leases",
         "journal_tests", "host_tests"}
# What the standard library names as an error.
FOREIGN = {"Error"}
# Errors that no crate hands out: words within one crate for what the answers above tell.
WITHIN = {"Fail", "Refused", "Refusal", "PayloadErr"}


def sources():
    for folder, _, names in os.walk(CRATES):
        parts = os.path.relpath(folder, CRATES).split(os.sep)
        if len(parts) > 1 and parts[1] == "src" and parts[0] not in ASIDE:
            for name in names:
                if name.endswith(".rt"):
                    yield parts[0], text_of("crates", *parts, name)


def variants(body):
    """The names of an enum's variants: what stands on its own level and isn't a comment."""
    found, depth = [], 0
    for line in body.splitlines():
        name = re.match(r"\s*([A-Z]\w*)", line)
        if depth == 0 and name:
            found.append(name[1])
        depth += sum(line.count(each) for each in "({<") - sum(line.count(each) for each in ")}>")
    return found


def public_enums():
    for crate, text in sources():
        for place in re.finditer(r"^pub enum (\w+)[^{\n]*\{\n(.*?)^\}", text, re.S | re.M):
            yield crate, place[1], variants(place[2])


def errors():
    """The types that stand as the error of a `Result` of a public function or of a trait's."""
    for crate, text in sources():
        for place in re.finditer(r"->\s*Result<(.*?)>\s*(?:ensures|requires|where|\{|;|$)", text, re.S | re.M):
            name = re.search(r",\s*([A-Z]\w*)(?:<[^>]*>)?\s*$", place[1])
            if name:
                yield crate, name[1]


def rows(page):
    """The answers of the second table: answer, calls and what shows it."""
    for line in page.split("## Each answer and its cause")[1].splitlines():
        cells = [cell.strip() for cell in line.split("|")[1:-1]]
        if len(cells) == 4 and cells[0].startswith("`"):
            yield cells[0].strip("`"), re.findall(r"`([^`]+)`", cells[2]), re.findall(r"`([^`]+)`", cells[3])


def holds_answers(page):
    told = [answer for answer, _, _ in rows(page)]
    values = set(re.findall(r"`([\w:]+)`", page.split("are values, and no answers:")[1]))
    check(len(told) == len(set(told)), "no answer has two rows")
    wanted = set()
    for crate, name, each in public_enums():
        if name in values or f"{crate}::{name}" in values:
            continue
        for variant in each:
            names = {f"{name}::{variant}", f"{crate}::{name}::{variant}"} & set(told)
            check(len(names) == 1, f"{crate}: {name}::{variant} has one row, and has {len(names)}")
            wanted |= names
    enums = {name for _, name, _ in public_enums()}
    for crate, name in set(errors()):
        if name not in enums | FOREIGN | WITHIN:
            check(name in told, f"{crate}: {name} has a row")
            wanted.add(name)
    for answer in sorted(set(told) - wanted):
        check(False, f"{answer} of the page is an answer of the sources")
    known = enums | {f"{crate}::{name}" for crate, name, _ in public_enums()}
    for value in sorted(values - known):
        check(False, f"{value} of the page is an enum of the sources")


def holds_calls(page):
    functions, clauses = set(), set()
    for _, text in sources():
        functions |= set(re.findall(r"\bfn (\w+)", text))
        clauses |= set(re.findall(r"ensures (\w+) \{", text))
    for answer, calls, _ in rows(page):
        for call in calls:
            check(call in functions, f"{answer}: {call} is a function of the sources")
        check(bool(calls), f"{answer} names a call")
    for line in page.split("## Each answer and its cause")[0].splitlines():
        cells = [cell.strip() for cell in line.split("|")[1:-1]]
        if len(cells) == 3 and cells[0].startswith("`"):
            for call in re.findall(r"`([^`]+)`", cells[0]):
                check(call.split("::")[-1] in functions, f"{call} is a function of the sources")
            crate = re.search(r"\((\w+)\)", cells[0])[1]
            definitions = "".join(text_of("crates", crate, "specs", name) for name in os.listdir(os.path.join(CRATES, crate, "specs")) if name.endswith(".antt"))
            for clause in re.findall(r"`([^`]+)`", cells[2]):
                known = clause in clauses or re.search(rf"\b{clause} :|record {clause}\b|abbrev pub {clause}\b", definitions)
                check(bool(known), f"{cells[0]}: {clause} is a clause, or a definition that one names")


def holds_examples(page):
    sections = set()
    for crate in ASIDE:
        path = os.path.join(CRATES, crate, "stdin")
        if os.path.exists(path):
            sections |= set(re.findall(r"^section (.*)$", text_of("crates", crate, "stdin"), re.M))
    for answer, _, shown in rows(page):
        check(bool(shown), f"{answer} is shown by something")
        for each in shown:
            check(each in sections or os.path.exists(os.path.join(ROOT, each)), f"{answer}: there is no example or script `{each}`")


def main():
    page = text_of("docs", "FAULTS.md")
    holds_answers(page)
    holds_calls(page)
    holds_examples(page)
    print(f"acceptance: {len(failures)} failed, of {sum(1 for _ in rows(page))} answers")
    return 1 if failures else 0


if __name__ == "__main__":
    sys.exit(main())
