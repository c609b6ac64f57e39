"""What a file says of a game's outcome, beside what is judged."""
from __future__ import annotations

import re
from typing import Callable, Dict, NamedTuple, Optional, Tuple

from .judging import Judgement, dealer, vulnerable
from .pbn_text import SAID, Tag
from .words import SEATS, VULNERABLE

_NUMBER = re.compile(r"[+-]?[0-9]{1,9}")
_SIDES = re.compile(r"(?:(NS|EW)\s*([+-]?[0-9]{1,9}))(?:\s*(NS|EW)\s*([+-]?[0-9]{1,9}))?")
_CONTRACT = re.compile(r"([1-7])(C|D|H|S|NT?)(X{0,2})")
_OTHER_WORDS = {"Love": "None", "-": "None", "Both": "All"}


class Difference(NamedTuple):
    """A tag of which something else is judged than it says."""

    tag: str
    said: str
    judged: str


def value(tags: Dict[str, Tag], name: str) -> Optional[str]:
    """What a tag says; nothing where it is missing, empty or `?`. A `^` in front is passed over."""
    said = tags[name].value.strip() if name in tags else ""
    said = said[1:].strip() if said.startswith("^") else said
    return said if said not in ("", "?") else None


def declarers_tricks(said: str, declarer: int) -> Optional[int]:
    """The tricks of declarer's side that a Result says; nothing where it cannot be read or contradicts itself."""
    if _NUMBER.fullmatch(said):
        return int(said)
    sides = _of_sides(said)
    side, other = ("NS", "EW") if declarer % 2 == 0 else ("EW", "NS")
    if sides is None or len(sides) == 2 and sum(sides.values()) != 13:
        return None
    return sides[side] if side in sides else 13 - sides[other]


def _of_sides(said: str) -> Optional[Dict[str, int]]:
    found = _SIDES.fullmatch(said)
    if not found or found.group(1) == found.group(3):
        return None
    return {side: int(number) for side, number in (found.group(1, 2), found.group(3, 4)) if side}


def _score_agrees(said: str, judgement: Judgement) -> bool:
    if _NUMBER.fullmatch(said):
        return int(said) == (judgement.score if (judgement.declarer or 0) % 2 == 0 else -judgement.score)
    sides = _of_sides(said)
    return sides is not None and all(number == (judgement.score if side == "NS" else -judgement.score) for side, number in sides.items())


def _result_agrees(said: str, judgement: Judgement) -> bool:
    return judgement.declarer is not None and declarers_tricks(said, judgement.declarer) == judgement.tricks_after


def _contract_agrees(said: str, judgement: Judgement) -> bool:
    said = "".join(said.split()).upper()
    if judgement.contract is None:
        return said == "PASS"
    found = _CONTRACT.fullmatch(said)
    return found is not None and found.group(1) + found.group(2).replace("NT", "N") + found.group(3) == str(judgement.contract).replace("NT", "N")


#: For each tag, what is judged, and whether what is said agrees.
_JUDGED: Dict[str, Tuple[Callable[[Judgement], str], Callable[[str, Judgement], bool]]] = {
    "Dealer": (lambda j: SEATS[dealer(j.board)], lambda said, j: said == SEATS[dealer(j.board)]),
    "Vulnerable": (lambda j: VULNERABLE[vulnerable(j.board)], lambda said, j: _OTHER_WORDS.get(said, said) == VULNERABLE[vulnerable(j.board)]),
    "Declarer": (lambda j: "" if j.declarer is None else SEATS[j.declarer], lambda said, j: j.declarer is not None and said == SEATS[j.declarer]),
    "Contract": (lambda j: "Pass" if j.contract is None else str(j.contract), _contract_agrees),
    "Result": (lambda j: "" if j.contract is None else str(j.tricks_after), _result_agrees),
    "Score": (lambda j: f"NS {j.score}", _score_agrees),
}


def differences(tags: Dict[str, Tag], judgement: Judgement) -> Tuple[Difference, ...]:
    """Every tag of the outcome of which something else is judged, in their order."""
    found = []
    for name in SAID:
        said = value(tags, name)
        judged, agrees = _JUDGED[name]
        if said is not None and not agrees(said, judgement):
            found.append(Difference(name, _text(tags[name].value), judged(judgement)))
    return tuple(found)


def _text(said: str) -> str:
    return said.encode("latin-1", "replace").decode("utf-8", "replace")
