#!/usr/bin/env python3
"""Whether the pages are plain: their sentences, lines, words, links and drawings.

    python3 tests/reading/plain.py           what isn't: status 1
    python3 tests/reading/plain.py --words   also how many words each page has

Of the pages that were rewritten in plain English (PLAIN): no line over 100 columns, and none of the
habits of BANNED outside of code. Of those that everybody reads (SHORT): no sentence over 40 words.
Of all pages: what links.py finds. Of all drawings and charts: each one made anew equals the one
that is kept. It is no part of the gate.
"""
import pathlib
import re
import subprocess
import sys

ROOT = pathlib.Path(__file__).resolve().parents[2]
SHORT = ["README.md", "docs/PROMISES.md"]
PLAIN = [
    *SHORT, "docs/ARCHITECTURE.md", "docs/BENCH.md", "docs/CONTRACTS.md", "docs/DECISIONS.md",
    "docs/GLOSSARY.md",
]
MOST_WORDS, MOST_COLUMNS = 40, 100
TIME = r"(?:ms|s|seconds|minutes|hours|days)"
BANNED = [
    (r"\b(?:stands?|stood|standing)\b", "is, is in, means"),
    (rf"\b\d+ {TIME} behind\b", "after"),
    (r"\bbehind (?:it|the (?:commit|event|turn|answer|first|last|opening))\b", "after"),
    (r"\bwhere (?:it|its|no|none|nothing|there|they|memory|one|that)\b", "if, when"),
    (r"\b(?:is|are|was|were|be) told\b", "prints, reports, returns, answers"),
    (r"\bof earlier days\b", "older, from before"),
    (r"\bhand(?:s|ed|ing)? (?:in|on|out)\b", "submit, pass"),
    (r"\b(?:take|takes|taken|took) out\b", "remove"),
    (r"\b(?:wants?|wanted)\b", "must, needs"),
    (r"\b(?:is|are) to be\b", "must"),
    (r"\balone\b", "only"),
    (r"\b(?:by itself|by themselves|none of its own)\b", "name the thing"),
]
TOOLS = ["tests/reading/links.py", "tests/reading/drawings.py", "tests/bench/plot"]


def blocks_of(text):
    """The text without code, pictures and addresses: paragraphs, list items and cells of tables."""
    text = re.sub(r"^```.*?^```", "", text, flags=re.MULTILINE | re.DOTALL)
    text = re.sub(r"<picture>.*?</picture>|<[^>]+>", "", text, flags=re.DOTALL)
    block = []
    for line in [*text.split("\n"), ""]:
        begins = re.match(r"\s*(?:[-*] |\d+\. |#|\||\[[^\]]+\]: )", line)
        if (begins or not line.strip()) and block:
            yield " ".join(block)
            block = []
        if line.startswith("    ") and not block and not begins or re.match(r"\[[^\]]+\]: ", line):
            continue
        if line.startswith("|"):
            yield from line.strip("|").split("|")
        elif line.strip():
            block.append(re.sub(r"^\s*(?:[-*] |\d+\. |#+ )", "", line).strip())


def plain(block):
    """A block without the addresses of its links and without code, which is one word."""
    block = re.sub(r"\[([^\[\]]*)\](?:\([^()]*\)|\[[^\[\]]*\])", r"\1", block)
    return re.sub(r"`[^`]*`", "CODE", block).replace("*", "").strip()


def sentences_of(text):
    for block in blocks_of(text):
        yield from filter(None, re.split(r"(?<=[.!?])\s+", plain(block)))


def long_sentences(page, text):
    for sentence in sentences_of(text):
        count = len(sentence.split())
        if count > MOST_WORDS:
            yield f"{page}: a sentence of {count} words: {sentence[:70]}.."


def long_lines(page, text):
    for number, line in enumerate(text.split("\n"), 1):
        if len(line) > MOST_COLUMNS:
            yield f"{page}:{number}: {len(line)} columns"


def banned_words(page, text):
    for block in blocks_of(text):
        words = plain(block)
        for form, better in BANNED:
            for found in re.finditer(form, words, re.IGNORECASE):
                around = words[max(0, found.start() - 30) : found.end() + 20]
                yield f"{page}: '{found.group()}' ({better}): ..{around}.."


def tool_faults(tool):
    done = subprocess.run([sys.executable, ROOT / tool], stdout=subprocess.PIPE, check=False)
    return done.stdout.decode().splitlines()[:-1] if done.returncode else []


def main():
    faults = []
    for page in PLAIN:
        text = (ROOT / page).read_text(encoding="utf8")
        faults += [*long_lines(page, text), *banned_words(page, text)]
        faults += long_sentences(page, text) if page in SHORT else []
    for tool in TOOLS:
        faults += tool_faults(tool)
    if "--words" in sys.argv:
        for path in sorted([ROOT / "README.md", *ROOT.glob("docs/*.md")]):
            print(f"{len(path.read_text(encoding='utf8').split()):6} {path.relative_to(ROOT)}")
    print("\n".join([*faults, f"{len(PLAIN)} pages, {len(faults)} faults"]))
    return 1 if faults else 0


if __name__ == "__main__":
    sys.exit(main())
