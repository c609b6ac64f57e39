"""Matchpoint tallies and the cells of a page of results, each by one call of the library."""
from __future__ import annotations

import ctypes
import struct
from dataclasses import dataclass
from typing import Any, NamedTuple, NoReturn, Optional, Sequence, Tuple, Union

from . import _native
from ._native import DEAL_BYTES, PLACES, TALLY_BYTES, Bytes
from .layout import unpack_deal
from .refused import refusal, unless_refused

_SCORES, _COUNTS = 1 + DEAL_BYTES, 1 + DEAL_BYTES + 2 * PLACES
#: What no board's score is, so that a call on a tally ends with 20 unless the tally is none: 17 comes before it.
_NO_SCORE, _MALFORMED = 1, 17


@dataclass(frozen=True)
class Played:
    """The cell of a result that was compared with others: the percentage of NS."""

    percent: float


@dataclass(frozen=True)
class Awarded:
    """The cell of a percentage that was awarded."""

    percent: float


@dataclass(frozen=True)
class Alone:
    """The cell of a board's only result."""


Cell = Union[Played, Awarded, Alone]


class Result(NamedTuple):
    """A score of a tally: how many results have it, and the matchpoints and the cell of one of them."""

    score: int
    count: int  # type: ignore[assignment]
    ns_matchpoints: int
    ew_matchpoints: int
    cell: Cell


class Tally:
    """The results of one board, which is never changed: adding and merging give another tally.

    >>> deal = [card // 13 for card in range(52)]
    >>> a = Tally(7).add(420, deal).add(-50, deal)
    >>> b = Tally(7).add(420, deal).add(450, deal)
    >>> a + b == b + a == sum([b, a], start=Tally(7))
    True
    >>> (a + b).matchpoints(420, deal)
    (3, 3)
    >>> (a + b).cell(450, deal)
    Played(percent=100.0)
    """

    __slots__ = ("_block",)
    _block: bytes

    def __init__(self, board: int) -> None:
        block = ctypes.create_string_buffer(TALLY_BYTES)
        unless_refused(_native.tally_fresh(_native.u32(board), block, len(block)))
        object.__setattr__(self, "_block", block.raw)

    @classmethod
    def from_bytes(cls, block: Bytes) -> Tally:
        """The tally of 398 bytes; `Refused` with 17 where they are none.

        >>> tally = Tally(7)
        >>> Tally.from_bytes(bytes(tally)) == tally
        True
        """
        block = _native.given(block)
        cell = ctypes.create_string_buffer(_native.CELL_BYTES)
        refused = refusal(_native.tally_cell(block, len(block), _NO_SCORE, None, 0, cell, len(cell)))
        if refused.number == _MALFORMED:
            raise refused
        return cls._of(_native.apart(block))

    @classmethod
    def _of(cls, block: bytes) -> Tally:
        tally = object.__new__(cls)
        object.__setattr__(tally, "_block", block)
        return tally

    def add(self, score: int, holders: Sequence[int]) -> Tally:
        """The tally with one result more: a score from NS, with the holder of each card; raises `Refused`."""
        deal, block = _native.numbers(holders), ctypes.create_string_buffer(TALLY_BYTES)
        unless_refused(_native.tally_add(self._block, TALLY_BYTES, _native.i32(score), deal, len(deal), block, len(block)))
        return self._of(block.raw)

    def __add__(self, other: Tally) -> Tally:
        if not isinstance(other, Tally):
            return NotImplemented
        block = ctypes.create_string_buffer(TALLY_BYTES)
        unless_refused(_native.tally_merge(self._block, TALLY_BYTES, _native.apart(other._block), TALLY_BYTES, block, len(block)))
        return self._of(block.raw)

    @property
    def board(self) -> int:
        """The board, 1 to 127."""
        return self._block[0]

    @property
    def holders(self) -> Optional[Tuple[int, ...]]:
        """The seat that was dealt each card; None where there is no result."""
        return unpack_deal(self._block[1:_SCORES]) if self._block[_COUNTS] else None

    def results(self) -> Tuple[Result, ...]:
        """A row a score, the highest first.

        >>> deal = [card // 13 for card in range(52)]
        >>> Tally(7).add(-50, deal).results()
        (Result(score=-50, count=1, ns_matchpoints=0, ew_matchpoints=0, cell=Alone()),)
        """
        deal = self.holders
        return () if deal is None else tuple(self._result(place, deal) for place in range(PLACES) if self._block[_COUNTS + place])

    def _result(self, place: int, deal: Sequence[int]) -> Result:
        at = _SCORES + 2 * place
        score = int.from_bytes(self._block[at : at + 2], "big", signed=True)
        return Result(score, self._block[_COUNTS + place], *self.matchpoints(score, deal), self.cell(score, deal))

    def matchpoints(self, score: int, holders: Sequence[int]) -> Tuple[int, int]:
        """Law 78A's matchpoints of one result with that score, NS and EW; raises `Refused`."""
        deal, points = _native.numbers(holders), ctypes.create_string_buffer(_native.POINTS_BYTES)
        unless_refused(_native.tally_matchpoints(self._block, TALLY_BYTES, _native.i32(score), deal, len(deal), points, len(points)))
        ns, ew = struct.unpack(">HH", points.raw)
        return ns, ew

    def cell(self, score: int, holders: Sequence[int]) -> Cell:
        """The cell of one result with that score; raises `Refused`."""
        deal, cell = _native.numbers(holders), ctypes.create_string_buffer(_native.CELL_BYTES)
        unless_refused(_native.tally_cell(self._block, TALLY_BYTES, _native.i32(score), deal, len(deal), cell, len(cell)))
        return _cell(cell.raw)

    def __bytes__(self) -> bytes:
        return self._block

    def __eq__(self, other: object) -> bool:
        if not isinstance(other, Tally):
            return NotImplemented
        return self._block == other._block

    def __hash__(self) -> int:
        return hash(self._block)

    def __reduce__(self) -> Tuple[Any, ...]:
        return Tally.from_bytes, (self._block,)

    def __repr__(self) -> str:
        count = sum(self._block[_COUNTS:])
        return f"<Tally of board {self.board}, {count} result{'' if count == 1 else 's'}>"

    def __setattr__(self, name: str, value: object) -> NoReturn:
        raise AttributeError(f"a Tally is never changed: {name}")

    def __delattr__(self, name: str) -> NoReturn:
        raise AttributeError(f"a Tally is never changed: {name}")


def award(percent: int) -> Awarded:
    """The cell of an award of 60, 50 or 40 per cent; raises `Refused`.

    >>> award(60)
    Awarded(percent=60.0)
    """
    cell = ctypes.create_string_buffer(_native.CELL_BYTES)
    unless_refused(_native.tally_award(_native.u32(percent), cell, len(cell)))
    return _cell(cell.raw)


def _cell(cell: bytes) -> Any:
    """Nine bytes: a kind, and the 64 bits of the float."""
    if cell[0] == 2:
        return Alone()
    return (Played, Awarded)[cell[0]](struct.unpack(">d", cell[1:])[0])


def reduce_blocks(a: Bytes, b: Bytes) -> bytes:
    """`tally_reduce` of two blocks: their merge, and 398 zeros where that is refused, so that a reduction may take any order and bracketing.

    >>> seven = bytes(Tally(7))
    >>> reduce_blocks(seven, seven) == seven
    True
    >>> reduce_blocks(seven, bytes(Tally(8))) == reduce_blocks(b"", seven) == bytes(398)
    True
    """
    a, b = _native.given(a), _native.apart(_native.given(b))
    block = ctypes.create_string_buffer(TALLY_BYTES)
    answer = _native.tally_merge(a, len(a), b, len(b), block, len(block))
    return bytes(TALLY_BYTES) if answer else block.raw
