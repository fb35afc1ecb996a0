"""The tokens of a source: words, literals and signs, each bracket with its other."""

from __future__ import annotations

import re
from bisect import bisect_left
from typing import NamedTuple

TOKEN = re.compile(
    r"""\s*(?:
    (?P<word>(?!(?:br|cr|[brc])["'\#])\w+ | r\#\w+)
  | (?P<comment>//[^\n]*)
  | (?P<block>/\*)
  | (?P<literal>(?:br|cr|r)(?P<fence>\#*)".*?"(?P=fence)
      | [bc]?"(?:\\.|[^"\\])*" | b?'(?:\\(?:u\{[^}]*\}|x..|.)|[^'\\\n])' | '[A-Za-z_]\w*)
  | (?P<bracket>[()\[\]{}])
  | (?P<sign>::|->|=>|\S)
  )""",
    re.VERBOSE | re.DOTALL,
)
BLOCK_EDGE = re.compile(r"/\*|\*/")
OPENING = {")": "(", "]": "[", "}": "{"}
DIRECTIVE = re.compile(r"//\s*allocative:\s*(.*?)\s*$")


class Fault(Exception):
    """Something in a source that is told, at an offset or of the whole file."""

    def __init__(self, at: int | None, what: str) -> None:
        super().__init__(what)
        self.at = at
        self.what = what


class Directive(NamedTuple):
    """A comment `// allocative: ..`: its place, what it says, how deep, and whether its line is its own."""

    start: int
    end: int
    says: str
    depth: int
    is_line: bool


class Tokens:
    """The tokens of a text, `count` words and three empty ones.

    `behind[i]` is the place behind the token i, or behind the whole group that it opens.
    """

    def __init__(self, text: str) -> None:
        self.text = text
        self.words: list[str] = []
        self.starts: list[int] = []
        self.directives: list[Directive] = []
        self._open: list[int] = []
        self._behind: dict[int, int] = {}
        at = 0
        while at < len(text):
            at = self._read(at)
        if self._open:
            raise Fault(self.starts[self._open[-1]], "this bracket has no other: close it")
        self.count = len(self.words)
        self.words += [""] * 3
        self.starts += [len(text)] * 3
        self.behind = [*range(1, len(self.words) + 1)]
        for place, behind in self._behind.items():
            self.behind[place] = behind

    def end(self, place: int) -> int:
        """The offset behind a token."""
        return self.starts[place] + len(self.words[place])

    def said_between(self, start: int, end: int) -> Directive | None:
        """The last comment that speaks of allocative between two offsets."""
        place = bisect_left(self.directives, (end,)) - 1
        return self.directives[place] if place >= 0 and self.directives[place].start >= start else None

    def _read(self, at: int) -> int:
        """Reads from an offset to the end of the next comment in `/*`, or of the text, and returns that."""
        words, starts = self.words, self.starts
        for found in TOKEN.finditer(self.text, at, len(self.text.rstrip())):
            kind = found.lastgroup
            word, start = found[kind], found.start(kind)
            if kind == "comment":
                said = DIRECTIVE.match(word)
                if said:
                    is_line = not self.text[self.text.rfind("\n", 0, start) + 1 : start].strip()
                    self.directives.append(Directive(start, found.end(), said[1], len(self._open), is_line))
            elif kind == "block":
                return self._block_end(start)
            elif word == '"':
                raise Fault(start, "a text that begins here has no end: close it")
            else:
                words.append(word)
                starts.append(start)
                if kind == "bracket":
                    self._match(word, start)
        return len(self.text)

    def _match(self, word: str, start: int) -> None:
        """Keeps an opening bracket, or gives a closing one to the last that is open."""
        if word not in OPENING:
            self._open.append(len(self.words) - 1)
        elif self._open and self.words[self._open[-1]] == OPENING[word]:
            self._behind[self._open.pop()] = len(self.words)
        else:
            raise Fault(start, f"this `{word}` has no other: open or remove it")

    def _block_end(self, start: int) -> int:
        """The offset behind a comment, which may have comments in it."""
        depth = 0
        for edge in BLOCK_EDGE.finditer(self.text, start):
            depth += 1 if edge.group() == "/*" else -1
            if depth == 0:
                return edge.end()
        raise Fault(start, "a comment that begins here has no end: close it")
