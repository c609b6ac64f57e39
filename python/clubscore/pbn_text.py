"""A file in Portable Bridge Notation cut into games: their tags, the words of Auction and Play, and what has no end. Nothing is judged here.

Lines are taken one by one. Most are one whole tag or words alone, and are read at once; the others are read sign by sign.
"""
from __future__ import annotations

import re
from typing import Dict, List, NamedTuple, Optional, Tuple

#: The tags that are read; all others are passed over with their sections.
SAID = ("Dealer", "Vulnerable", "Declarer", "Contract", "Result", "Score")
SECTIONS = ("Auction", "Play")
READ = frozenset(("Board", "Table", "Deal") + SECTIONS + SAID)

_LINE_END = re.compile(rb"\r*\n|\r")
_EMPTY = re.compile(r"[ \t\v\f]*\Z")
_WHOLE_TAG = re.compile(r'[ \t]*\[[ \t]*(\w+)[ \t]+"([^"\\]*)"[ \t]*\][ \t]*\Z', re.ASCII)
_TAG = re.compile(r'\[\s*(\w+)\s*"((?:[^"\\\n]|\\[^\n])*)"\s*\]', re.ASCII)
_STRING = re.compile(r'"(?:[^"\\]|\\.)*"')
_WORD = re.compile(r'[^\s{;\["]+')
_BLANKS = re.compile(r"\s+")
_SIGNS = re.compile(r'[{;\["]')
#: A tag may be written over so many lines.
_TAG_LINES = 4


class Word(NamedTuple):
    """A word, or a whole string in quotes, with its line."""

    text: str
    line: int


class Tag(NamedTuple):
    """A tag's value with its line."""

    value: str
    line: int


class Raw:
    """A game as it stands in the file. Where words stand outside any game, one without a tag."""

    __slots__ = ("line", "tags", "sections", "faults", "tagged")

    def __init__(self, line: int) -> None:
        self.line = line
        self.tags: Dict[str, Tag] = {}
        self.sections: Dict[str, List[Word]] = {}
        self.faults: List[Tuple[int, str]] = []
        self.tagged = False


def raw_games(text: bytes) -> List[Raw]:
    """The games of a file, one after another. No bytes make it raise."""
    return _Reader(text).games


class _Reader:
    def __init__(self, text: bytes) -> None:
        text = text[3:] if text.startswith(b"\xef\xbb\xbf") else text
        self.lines = [line.decode("latin-1") for line in _LINE_END.split(text.rstrip(b"\x1a"))]
        self.games: List[Raw] = []
        self.game: Optional[Raw] = None
        self.before: Dict[str, Tag] = {}
        self.section: Optional[List[Word]] = None
        at = 0
        while at < len(self.lines):
            at = self._line(at)
        self._end()

    def _line(self, at: int) -> int:
        """Reads from the start of a line; gives the line to go on with."""
        line = self.lines[at]
        if line.startswith("%"):
            return at + 1
        if _EMPTY.match(line):
            self._end()
            return at + 1
        whole = _WHOLE_TAG.match(line)
        if whole:
            self._tag(whole.group(1), whole.group(2), at + 1)
        elif not _SIGNS.search(line):
            self._words(line.split(), at + 1)
        else:
            return self._signs(at)
        return at + 1

    def _signs(self, at: int) -> int:
        """Reads a line sign by sign, and those that a comment or tag goes on to."""
        place = 0
        while True:
            line = self.lines[at]
            blanks = _BLANKS.match(line, place)
            place = blanks.end() if blanks else place
            sign = line[place : place + 1]
            if sign in ("", ";"):
                return at + 1
            if sign == "{":
                end = self._comment_end(at, place)
                if end is None:
                    self._fault("a comment without its end", at + 1)
                    return self._empty_line(at)
                at, place = end
            elif sign == "[":
                end = self._tag_at(at, place)
                if end is None:
                    self._fault("a tag without its end, or without a name and a value in quotes", at + 1)
                    return at + 1
                at, place = end
            else:
                found = (_STRING if sign == '"' else _WORD).match(line, place)
                place = found.end() if found else len(line)
                self._words([found.group() if found else '"'], at + 1)

    def _comment_end(self, at: int, place: int) -> Optional[Tuple[int, int]]:
        """Where a comment ends. One in which an empty line is followed by another comment's start is without its end: comments do not stand in each other."""
        apart, place = False, place + 1
        while at < len(self.lines):
            line = self.lines[at]
            end, start = line.find("}", place), line.find("{", place)
            if apart and start >= 0 and not 0 <= end < start:
                return None
            if end >= 0:
                return at, end + 1
            apart = apart or bool(_EMPTY.match(line))
            at, place = at + 1, 0
        return None

    def _empty_line(self, at: int) -> int:
        while at < len(self.lines) and not _EMPTY.match(self.lines[at]):
            at += 1
        return at

    def _tag_at(self, at: int, place: int) -> Optional[Tuple[int, int]]:
        """Takes the tag that starts at a place, on its line or over several; gives where it ends."""
        tag = _TAG.match(self.lines[at], place)
        if tag:
            self._tag(tag.group(1), tag.group(2), at + 1)
            return at, tag.end()
        text = "\n".join([self.lines[at][place:]] + self.lines[at + 1 : at + _TAG_LINES])
        tag = _TAG.match(text)
        if not tag:
            return None
        self._tag(tag.group(1), tag.group(2), at + 1)
        newlines = tag.group().count("\n")
        return at + newlines, len(tag.group()) - tag.group().rfind("\n") - 1

    def _tag(self, name: str, value: str, line: int) -> None:
        game = self.game if self.game is not None and self.game.tagged else self._start(line)
        game.tagged = True
        if name == "Note":
            return
        self.section = None
        if name not in READ:
            return
        value = re.sub(r"\\(.)", r"\1", value)
        if value == "#":
            value = self.before[name].value if name in self.before else ""
        known = game.tags.get(name)
        if known is not None and (known.value != value or name in SECTIONS):
            self._fault(f"a second {name} tag", line)
            return
        game.tags[name] = Tag(value, line)
        if name in SECTIONS:
            self.section = game.sections[name] = []

    def _words(self, words: List[str], line: int) -> None:
        if self.game is None:
            self._fault("words outside any game", line)
        if self.section is not None:
            self.section.extend([Word(word, line) for word in words])

    def _fault(self, words: str, line: int) -> None:
        game = self.game if self.game is not None else self._start(line)
        game.faults.append((line, words))

    def _start(self, line: int) -> Raw:
        self._end()
        self.game = Raw(line)
        return self.game

    def _end(self) -> None:
        if self.game is not None:
            self.games.append(self.game)
            self.before = self.game.tags if self.game.tagged else self.before
        self.game = self.section = None
