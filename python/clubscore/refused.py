"""A refusal of the library, as an exception."""
from __future__ import annotations

from . import _native

_PLACES = 1024


class Refused(Exception):
    """What the library refused: `number` and `place` of `docs/RULES.md`, and as `str` the words that the programs print.

    >>> from clubscore import judge
    >>> try:
    ...     judge(bytes([0, 1]))
    ... except Refused as refused:
    ...     print(refused.number, refused.place, refused)
    3 0 board not 1 to 127
    """

    def __init__(self, number: int, place: int = 0) -> None:
        super().__init__(number, place)
        self.number = number
        self.place = place

    def __str__(self) -> str:
        return _native.words(self.number, self.place) or f"refusal {self.number}, place {self.place}"

    def __eq__(self, other: object) -> bool:
        return isinstance(other, Refused) and (self.number, self.place) == (other.number, other.place)

    def __hash__(self) -> int:
        return hash((Refused, self.number, self.place))


def refusal(answer: int) -> Refused:
    """The refusal in what a C function returned."""
    return Refused(answer // _PLACES, answer % _PLACES)


def unless_refused(answer: int) -> int:
    """What a C function returned, where that is below 1024, and so no refusal."""
    if answer >= _PLACES:
        raise refusal(answer)
    return answer
