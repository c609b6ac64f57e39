"""Deal, calls and cards of a game in Portable Bridge Notation as plain numbers. Whether they fit is the library's to say."""
from __future__ import annotations

import re
from typing import Callable, Dict, List, Optional, Tuple

from .pbn_text import Tag, Word
from .words import CALLS, CARD_NUMBERS, CARDS, MARK, RANKS, SEATS

_CALLS: Dict[str, int] = {word: code for code, word in enumerate(CALLS)}
_CALLS.update({word[:2]: code for word, code in _CALLS.items() if word.endswith("NT")})
_CALLS.update({"pass": 0, "P": 0})

#: A word with an irregularity in front, and notes, suffixes and the sign of the end behind.
_MARKED = re.compile(r"(\^[A-Za-z]?)?(.*?)((?:=[0-9]+=|\$[0-9]+|[!?]+)*)(\*?)", re.DOTALL)
#: No call or card with its notes is longer.
_LONGEST = 40
_HAND = re.compile(f"[{RANKS}]*")
_DIGITS = re.compile("[0-9]+")


class LeftOut(Exception):
    """Why no record can be made of a game, in words."""


def at(line: int, words: str) -> LeftOut:
    return LeftOut(f"line {line}: {words}")


def shown(text: str) -> str:
    """A text of the file in one line that can be printed: cut where it is long, and signs that would not be seen as their numbers."""
    text = text.encode("latin-1", "replace").decode("utf-8", "backslashreplace")
    text = text if len(text) <= _LONGEST else text[:_LONGEST] + ".."
    return "".join(sign if sign.isprintable() else sign.encode("unicode-escape").decode("ascii") for sign in text)


def number(value: str) -> Optional[int]:
    """What digits alone say; one that no board or table can be where there are too many."""
    value = value.strip()
    return int(value[-9:] if not value[:-9].strip("0") else "9" * 9) if _DIGITS.fullmatch(value) else None


def seat(name: str, tag: Tag) -> int:
    value = tag.value.strip()
    if len(value) != 1 or value not in SEATS:
        raise at(tag.line, f'{name} "{shown(tag.value)}", which is no seat')
    return SEATS.index(value)


def holders(tag: Tag) -> List[int]:
    """The seat of each card, from a Deal tag that may start from any seat, with ranks in any order."""
    first, colon, rest = tag.value.strip().partition(":")
    start, hands = seat("Deal", Tag(first, tag.line)), rest.split()
    if not colon or len(hands) != 4:
        raise at(tag.line, "Deal: not four hands")
    found: Dict[int, int] = {}
    for turn, hand in enumerate(hands):
        for card in _cards(hand, tag.line):
            if card in found:
                raise at(tag.line, f"Deal: {CARDS[card]} stands twice")
            found[card] = (start + turn) % 4
    for card, word in enumerate(CARDS):
        if card not in found:
            raise at(tag.line, f"Deal: no hand has {word}")
    return [found[card] for card in range(52)]


def _cards(hand: str, line: int) -> List[int]:
    suits = hand.split(".")
    if len(suits) != 4 or not all(_HAND.fullmatch(ranks) for ranks in suits):
        raise at(line, f"Deal: {shown(hand)}, which is no hand")
    return [13 * suit + RANKS.index(rank) for suit, ranks in zip((3, 2, 1, 0), suits) for rank in ranks]


def _apart(word: Word, kind: str) -> Tuple[str, str, bool]:
    """A word without its notes: the irregularity in front, the call or card, and whether the section ends behind it."""
    if len(word.text) > _LONGEST:
        raise at(word.line, f"{shown(word.text)}, which is no {kind}")
    found = _MARKED.fullmatch(word.text)
    return (found.group(1) or "", found.group(2), bool(found.group(4))) if found else ("", word.text, False)


def calls(words: List[Word], due: Callable[[List[int]], int]) -> List[int]:
    """The codes of the calls, marks among them. `due` says how many passes `AP` stands for after these codes."""
    codes: List[int] = []
    ended = False
    for word in words:
        code = _CALLS.get(word.text)
        if code is not None and not ended:
            codes.append(code)
            continue
        front, core, end = _apart(word, "call")
        if ended and (front or core or end):
            raise at(word.line, f"{shown(word.text)} behind the end of the auction")
        ended = ended or end
        codes.extend(_call(word, front, core, codes, due))
    return codes


def _call(word: Word, front: str, core: str, codes: List[int], due: Callable[[List[int]], int]) -> List[int]:
    if front not in ("", "^I"):
        raise at(word.line, f"{shown(front)}, which a record cannot say")
    mark = [MARK] if front else []
    if core in ("-", "+"):
        raise at(word.line, f"{core} among the calls, which a record cannot say")
    if core == "AP":
        return mark + [0] * due(codes + mark)
    if core and core not in _CALLS:
        raise at(word.line, f"{shown(word.text)}, which is no call")
    return mark + [_CALLS[core]] if core else mark


def places(words: List[Word]) -> List[Tuple[Optional[int], int]]:
    """The places of the Play section in columns, each a card or none, with its line; those at the end that were not played left out."""
    found: List[Tuple[Optional[int], int]] = []
    ended = False
    for word in words:
        card = CARD_NUMBERS.get(word.text)
        if card is not None and not ended:
            found.append((card, word.line))
            continue
        front, core, end = _apart(word, "card")
        if ended and (front or core or end):
            raise at(word.line, f"{shown(word.text)} behind the end of the play")
        ended = ended or end
        found.extend(_place(word, front, core))
    while found and found[-1][0] is None:
        found.pop()
    return _whole_tricks(found)


def _place(word: Word, front: str, core: str) -> List[Tuple[Optional[int], int]]:
    if front not in ("", "^R"):
        raise at(word.line, f"{shown(front)}, which a record cannot say")
    if core == "+":
        raise at(word.line, "+, an unfinished play, which a record cannot say")
    if core and core != "-" and core not in CARD_NUMBERS:
        raise at(word.line, f"{shown(word.text)}, which is no card")
    return [(CARD_NUMBERS.get(core), word.line)] if core else []


def _whole_tricks(found: List[Tuple[Optional[int], int]]) -> List[Tuple[Optional[int], int]]:
    """The places, where all tricks but the last have four cards."""
    if len(found) > 52:
        raise at(found[52][1], "more than 13 tricks of four cards")
    last = (len(found) - 1) // 4 * 4
    for card, line in found[: max(last, 0)]:
        if card is None:
            raise at(line, "a place that was not played, and a later trick")
    return found
