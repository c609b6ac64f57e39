"""Table records: judged, written, read from Portable Bridge Notation, and explained, each by one call of the library."""
from __future__ import annotations

import ctypes
from dataclasses import dataclass
from typing import NamedTuple, Optional, Sequence, Tuple

from . import _native
from ._native import Bytes
from .refused import unless_refused
from .words import DOUBLINGS, STRAINS

#: A byte that no seat is: what is left in the buffer of winners was not filled.
_UNFILLED = 0xFF


class Contract(NamedTuple):
    """A contract in numbers; `str` of it is `4SX` or `3NT`.

    >>> str(Contract(level=4, strain=3, doubling=1))
    '4SX'
    """

    level: int
    strain: int
    doubling: int

    def __str__(self) -> str:
        return f"{self.level}{STRAINS[self.strain]}{DOUBLINGS[self.doubling]}"


class Revoke(NamedTuple):
    """A revoke: its trick from 1, the seat, and the suit that it is listed with."""

    trick: int
    seat: int
    suit: int


class Failure(NamedTuple):
    """A failure to play a penalty card: its trick from 1, the seat, and the card played."""

    trick: int
    seat: int
    card: int


class Winner(NamedTuple):
    """Who won a trick, and with which card."""

    seat: int
    card: int


class Item(NamedTuple):
    """A line of the slip: what Law 77 grants, with points signed for NS."""

    name: str
    points: int


@dataclass(frozen=True)
class Judgement:
    """What the judge answers for a record that it accepts. Passed out, `contract` and `declarer` are None and the tricks 0."""

    board: int
    table: int
    contract: Optional[Contract]
    declarer: Optional[int]
    tricks: int
    tricks_after: int
    revokes: Tuple[Revoke, ...]
    failures: Tuple[Failure, ...]
    winners: Tuple[Winner, ...]
    score: int


def judge(record: Bytes) -> Judgement:
    """Judges one table record; raises `Refused`.

    North has the clubs, East the diamonds, South the hearts and West the spades; North plays one club, and after the first trick claims the rest:

    >>> deal = [card // 13 for card in range(52)]
    >>> judgement = judge(write_record(1, 1, deal, [3, 0, 0, 0], [13, 26, 39, 0], claim=12))
    >>> str(judgement.contract), judgement.declarer, judgement.tricks_after, judgement.score
    ('1C', 0, 13, 190)
    >>> judgement.winners
    (Winner(seat=0, card=0),)
    """
    record = _native.given(record)
    answer, revokes = ctypes.create_string_buffer(_native.ANSWER_BYTES), ctypes.create_string_buffer(_native.REVOKE_BYTES)
    failures = ctypes.create_string_buffer(_native.FAILURE_BYTES)
    winners = ctypes.create_string_buffer(bytes([_UNFILLED]) * _native.WINNER_BYTES, _native.WINNER_BYTES)
    unless_refused(_native.judge_record(record, len(record), answer, len(answer), revokes, len(revokes), failures, len(failures), winners, len(winners)))
    return _judgement(answer.raw, revokes.raw, failures.raw, winners.raw)


def _judgement(answer: bytes, revokes: bytes, failures: bytes, winners: bytes) -> Judgement:
    """The bytes that the judge filled, apart, as the helpers of `judge.h` take them apart."""
    passed_out = answer[2] >> 5 == 0
    return Judgement(
        board=answer[0] >> 1,
        table=(answer[0] & 1) << 8 | answer[1],
        contract=None if passed_out else Contract(answer[2] >> 5, answer[2] >> 2 & 7, answer[2] & 3),
        declarer=None if passed_out else answer[3] >> 6,
        tricks=answer[3] >> 2 & 15,
        tricks_after=(answer[3] & 3) << 2 | answer[4] >> 6,
        revokes=tuple(Revoke(byte >> 4, byte >> 2 & 3, byte & 3) for byte in revokes[: answer[4] & 63]),
        failures=tuple(_failures(failures)),
        winners=tuple(Winner(*pair) for pair in zip(winners[::2], winners[1::2]) if pair[0] != _UNFILLED),
        score=int.from_bytes(answer[5:7], "big", signed=True),
    )


def _failures(failures: bytes):
    for high, low in zip(failures[::2], failures[1::2]):
        if high >> 4 == 0:
            return
        yield Failure(high >> 4, high >> 2 & 3, (high & 3) << 4 | low >> 4)


def write_record(board: int, table: int, holders: Sequence[int], calls: Sequence[int], plays: Sequence[int], claim: Optional[int] = None) -> bytes:
    """Writes one table record from plain numbers, as `judge_write_record` takes them; raises `Refused`.

    >>> record = write_record(1, 1, [card // 13 for card in range(52)], [0, 0, 0, 0], [])
    >>> record.hex(" ")
    '02 01 00 00 00 15 55 55 5a aa aa ab ff ff ff 02 00 00 00 00'
    """
    holders, calls, plays = _native.numbers(holders), _native.numbers(calls), _native.numbers(plays)
    marked, tricks = (0, 0) if claim is None else (1, _native.u32(claim))
    record = ctypes.create_string_buffer(_native.RECORD_MOST)
    answer = _native.judge_write_record(
        _native.u32(board), _native.u32(table), holders, len(holders), calls, len(calls), plays, len(plays), marked, tricks, record, len(record)
    )
    written = unless_refused(answer)
    return record.raw[:written]


def read_pbn(text: Bytes, table: int) -> bytes:
    """The record of one game in the subset of Portable Bridge Notation of `docs/RULES.md`, 15; raises `Refused`. `clubscore.pbn` reads files.

    >>> deal = "N:...AKQJT98765432 ..AKQJT98765432. .AKQJT98765432.. AKQJT98765432..."
    >>> text = f'[Board "1"]\\n[Deal "{deal}"]\\n[Auction "N"]\\nPass Pass Pass Pass\\n'
    >>> judge(read_pbn(text.encode(), table=3)).table
    3
    """
    text = _native.given(text)
    record = ctypes.create_string_buffer(_native.RECORD_MOST)
    written = unless_refused(_native.judge_read_pbn(text, len(text), _native.u32(table), record, len(record)))
    return record.raw[:written]


def best_play(record: Bytes) -> int:
    """How many of the tricks left declarer's side takes if both sides play their best, 0 to 4; raises `Refused`.

    >>> deal = [card // 13 for card in range(52)]
    >>> plays = [13, 26, 39, 0] + [card for rank in range(1, 9) for card in (rank, 13 + rank, 26 + rank, 39 + rank)]
    >>> best_play(write_record(1, 1, deal, [3, 0, 0, 0], plays, claim=0))
    4
    """
    record = _native.given(record)
    return unless_refused(_native.judge_best_play(record, len(record)))


def slip(record: Bytes) -> Tuple[Item, ...]:
    """Where a record's score comes from: the items of the slip, without their sum; empty where passed out; raises `Refused`.

    >>> deal = [card // 13 for card in range(52)]
    >>> slip(write_record(1, 1, deal, [3, 0, 0, 0], [13, 26, 39, 0], claim=12))
    (Item(name='TRICKS', points=20), Item(name='OVERTRICKS', points=120), Item(name='PARTSCORE', points=50))
    """
    record = _native.given(record)
    text = ctypes.create_string_buffer(_native.SLIP_MOST)
    length = unless_refused(_native.judge_slip(record, len(record), text, len(text)))
    lines = (line.split() for line in text.raw[:length].decode("ascii").splitlines())
    return tuple(Item(name, int(points)) for name, points in lines if name != "SUM")


def dealer(board: int) -> int:
    """The seat that deals a board; raises `Refused`.

    >>> dealer(7)
    2
    """
    return unless_refused(_native.judge_dealer(_native.u32(board)))


def vulnerable(board: int) -> int:
    """Which sides are vulnerable on a board: 0 none, 1 NS, 2 EW, 3 both; raises `Refused`.

    >>> vulnerable(4)
    3
    """
    return unless_refused(_native.judge_vulnerable(_native.u32(board)))
