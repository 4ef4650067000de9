"""The definitions of a `specs/` file, as believed.py and words.py read them."""
import pathlib
import re

ROOT = pathlib.Path(__file__).resolve().parents[2]
WORD = re.compile(r"[A-Za-z_][A-Za-z0-9_'-]*")
HEAD = re.compile(r"^(?:abbrev |unfoldable )*(pub )?((?:record|data) )?(◌\S+◌|[A-Za-z_][A-Za-z0-9_'-]*)(?= ).*? :(?: |$)")
USE = re.compile(r"^(?:pub )?use Rattle\.([\w.]+?)(?:\.\{(.*)\}| as (\w+))?$")
MAKER = re.compile(r"^\s+([A-Za-z_][A-Za-z0-9_'-]*) : ")


class Word:
    """A definition: its lines without comments, and the comment in front of it."""

    def __init__(self, name, public, kind, comment):
        self.name, self.public, self.kind, self.comment = name, public, kind, comment
        self.lines = []


class SpecFile:
    """A file of `specs/`: the comment at its head, its definitions in their order, and what its `use` lines bring."""

    def __init__(self, path):
        self.path = path
        self.place = path.relative_to(ROOT / "crates")
        self.crate = self.place.parts[0]
        self.module = ".".join([self.crate, *self.place.with_suffix("").parts[1:]])
        self.words, self.makers, self.brought, self.aliases = {}, {}, {}, {}
        lines = path.read_text(encoding="utf8").split("\n")
        first = next((n for n, line in enumerate(lines) if not line.startswith("--")), len(lines))
        self.head = comment_of(lines[:first])
        self._read(lines[first:])

    def _read(self, lines):
        self._word, self._mutual, comment = None, False, []
        for line in lines:
            use = USE.match(line)
            if use:
                self._bring(*use.groups())
            elif line.lstrip().startswith("--"):
                comment.append(line)
            elif line.strip() and not re.match(r"(pub )?mod |infix", line):
                self._take(line, comment)
                comment = []
            elif not line.strip():
                comment = []

    def _bring(self, module, words, alias):
        """A `use` line: words of a module, perhaps under other names, or the module itself under a short one."""
        if alias:
            self.aliases[alias] = module
        for word in filter(None, (words or "").split(", ")):
            old, _, new = word.partition(" as ")
            self.brought[(new or old).strip()] = (module, old.strip())

    def _take(self, line, comment):
        """A line of a definition. The definitions of a `mutual` block are those that are indented by two."""
        if not line[0].isspace():
            self._mutual = line.strip() in ("mutual", "abbrev mutual")
            if self._mutual:
                return
        flush = re.match(r"  \S", line) if self._mutual else not line[0].isspace()
        head = HEAD.match(line.strip()) if flush else None
        if head and head.group(3) not in self.words:
            public, kind, name = head.groups()
            self._word = self.words[name] = Word(name, bool(public), (kind or "").strip(), comment_of(comment))
        elif self._word and self._word.kind == "data" and MAKER.match(line):
            self.makers[MAKER.match(line).group(1)] = self._word.name
        if self._word:
            self._word.lines.append(line)


def comment_of(lines):
    """The text of the lines of a comment, without what it shows in lines of its own."""
    text = ""
    for line in lines:
        words = line.strip().removeprefix("--")
        if words.startswith("    "):
            text = text.removesuffix(":") + "." if text.endswith(":") else text
        else:
            text += " " + words.strip()
    return text.strip()


def spec_files():
    """All files of `specs/`, by module."""
    files = [SpecFile(path) for path in sorted((ROOT / "crates").glob("*/specs/**/*.antt"))]
    return {file.module: file for file in files}
