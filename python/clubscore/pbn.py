"""Files of games in Portable Bridge Notation, in the export or import format of PBN 2.1, as programs write them: a record a game, by the library.

The words of a file become plain numbers or a text of the library's subset; the library makes the record, judges it, and says who won each trick. What the
file says of the outcome is compared with the judgement.
"""
from __future__ import annotations

from collections import Counter
from dataclasses import dataclass
from typing import Callable, List, Optional, Tuple

from . import _native
from .judging import Judgement, dealer, judge, read_pbn, write_record
from .pbn_said import Difference, declarers_tricks, differences, value
from .pbn_text import Raw, raw_games
from .pbn_words import LeftOut, at, calls, holders, number, places, seat, shown
from .refused import Refused
from .words import CALLS, CARDS, MARK, SEATS, hand

__all__ = ["Difference", "Game", "games"]

_NOT_OVER, _OUTSIDE, _CARD_REFUSALS = 9, 32, (12, 23)
_ROWS, _MOST_CODES = 13, 511


@dataclass(frozen=True)
class Game:
    """A game of a file: `record`, or in `left_out` why there is none; `refused` where that was the library."""

    number: int
    line: int
    board: Optional[int]
    table: Optional[int]
    record: Optional[bytes]
    differences: Tuple[Difference, ...]
    left_out: Optional[str]
    refused: Optional[Refused]


def games(text: _native.Bytes, table: Optional[int] = None) -> List[Game]:
    """The games of a file. `table` is that of games without a number in a Table tag; without it they get 1, 2, .. on each board.

    >>> text = b'[Board "1"]\\n[Deal "E:..AKQJT98765432. .AKQJT98765432.. AKQJT98765432... ...AKQJT98765432"]\\n[Dealer "S"]\\n[Auction "N"] AP'
    >>> game = games(text)[0]
    >>> game.number, game.line, game.board, game.table, len(game.record)
    (1, 1, 1, 1, 20)
    >>> game.differences
    (Difference(tag='Dealer', said='S', judged='N'),)
    """
    return [game() for game in unread_games(text, table)]


def unread_games(text: _native.Bytes, table: Optional[int] = None) -> List[Callable[[], Game]]:
    """The same, each still to be read by a call, so that how far it is can be shown."""
    raws = raw_games(_native.given(text))
    table = None if table is None else _native.u32(table)
    seen: Counter = Counter()
    unread = []
    for count, raw in enumerate(raws, 1):
        board = number(raw.tags["Board"].value) if "Board" in raw.tags else None
        if board is not None:
            seen[board] += 1
        given = number(raw.tags["Table"].value) if "Table" in raw.tags else None
        by_order = table if table is not None else seen[board] if board is not None else None
        unread.append(_unread(count, raw, board, given if given is not None else by_order))
    return unread


def _unread(count: int, raw: Raw, board: Optional[int], table: Optional[int]) -> Callable[[], Game]:
    def read() -> Game:
        try:
            record = _record(raw, board, table)
            return Game(count, raw.line, board, table, record, differences(raw.tags, judge(record)), None, None)
        except LeftOut as why:
            refused = why.__cause__ if isinstance(why.__cause__, Refused) else None
            return Game(count, raw.line, board, table, None, (), str(why), refused)
        except Refused as refused:
            return Game(count, raw.line, board, table, None, (), str(refused), refused)

    return read


def _record(raw: Raw, board: Optional[int], table: Optional[int]) -> bytes:
    if raw.faults:
        raise at(*min(raw.faults))
    for name in ("Board", "Deal", "Auction"):
        tag = raw.tags.get(name)
        if tag is None or not tag.value.strip() and not raw.sections.get(name):
            raise LeftOut(f"without {name} no record can be made")
    if board is None or table is None:
        raise at(raw.tags["Board"].line, f'Board "{shown(raw.tags["Board"].value)}", which is no number')
    return _Contents(raw, board, table).record()


class _Contents:
    """A game's contents as plain numbers, and the calls of the library that make a record of them."""

    def __init__(self, raw: Raw, board: int, table: int) -> None:
        self.raw, self.board, self.table = raw, board, table
        self.holders = holders(raw.tags["Deal"])
        self.first_call = seat("Auction", raw.tags["Auction"])
        self.calls = calls(raw.sections["Auction"], self._passes_due)
        self.places = places(raw.sections["Play"]) if "Play" in raw.sections else []
        self.first_card = seat("Play", raw.tags["Play"]) if self.places else 0

    def record(self) -> bytes:
        if not self.calls:
            raise LeftOut("without a call no record can be made")
        if not 1 <= self.board <= 999:
            return self._written([], None)
        if MARK in self.calls:
            return self._by_contents()
        if sum(card is not None for card, _ in self.places) == 4 * _ROWS:
            return self._by_text(self._filled())
        return self._ended_early() if self.places else self._passed_out()

    def _passes_due(self, codes: List[int]) -> int:
        """How many passes end the auction after these codes, by asking the library whether it is over; none after more codes than a record has, which
        are refused whatever follows."""
        for count in range(4 if len(codes) <= _MOST_CODES else 0):
            try:
                write_record(self.board, 1, self.holders, codes + [0] * count, [])
            except Refused as refused:
                if refused.number == _NOT_OVER:
                    continue
            return count
        return 4 if len(codes) <= _MOST_CODES else 0

    def _by_text(self, rows: List[List[int]]) -> bytes:
        """The record of a text of the subset with these tricks in columns."""
        try:
            return read_pbn(self._text(rows), self.table)
        except Refused as refused:
            if refused.number != _OUTSIDE:
                raise
            raise LeftOut(f"{self._wrong_seat(refused.place)}; in the subset, {refused}") from refused

    def _text(self, rows: List[List[int]]) -> bytes:
        deal = " ".join(hand(self.holders, holder) for holder in range(4))
        lines = [f'[Board "{self.board}"]', f'[Deal "N:{deal}"]', f'[Auction "{SEATS[self.first_call]}"]']
        lines += [" ".join(CALLS[code] for code in self.calls[k : k + 4]) for k in range(0, len(self.calls), 4)]
        if rows:
            lines.append(f'[Play "{SEATS[self.first_card]}"]')
            lines += [" ".join(CARDS[card] for card in row) for row in rows]
        return "".join(line + "\n" for line in lines).encode("ascii")

    def _wrong_seat(self, place: int) -> str:
        if place == 3:
            return f"line {self.raw.tags['Auction'].line}: Auction is not from the board's dealer on"
        if not self.places:
            return "no card was played, and without one no record can be made of a contract"
        return f"line {self.raw.tags['Play'].line}: Play is not from the opening leader on, or all passed"

    def _rows(self) -> List[List[Optional[int]]]:
        cards = [card for card, _ in self.places]
        return [cards[k : k + 4] + [None] * (4 - len(cards[k : k + 4])) for k in range(0, len(cards), 4)]

    def _filled(self) -> List[List[int]]:
        """The same with some card in each place that was not played."""
        return [[0 if card is None else card for card in row] for row in self._rows()]

    def _passed_out(self) -> bytes:
        return self._by_text([])

    def _ended_early(self) -> bytes:
        """With a claim. What the subset refuses before the cards is asked first, with rows filled up; which card is wrong is seen in order of play."""
        filled = self._filled()
        try:
            self._by_text(filled + [[0] * 4] * (_ROWS - len(filled)))
        except Refused as refused:
            if refused.number not in _CARD_REFUSALS:
                raise
        return self._with_claim(self._in_order())

    def _by_contents(self) -> bytes:
        """With a mark, which the subset cannot say."""
        if self.first_call != dealer(self.board):
            raise at(self.raw.tags["Auction"].line, "Auction is not from the board's dealer on")
        leader = self._opening_leader()
        if not self.places:
            raise LeftOut(self._wrong_seat(0))
        if self.first_card != leader:
            raise at(self.raw.tags["Play"].line, "Play is not from the opening leader on")
        plays = self._in_order()
        return self._written(plays, None) if len(plays) == 52 else self._with_claim(plays)

    def _opening_leader(self) -> int:
        """The seat of which the library accepts a card as the first one."""
        for leader in range(4):
            card = self.holders.index(leader) if leader in self.holders else 0
            try:
                self._written([card], 0)
                return leader
            except Refused as refused:
                if refused.number not in _CARD_REFUSALS:
                    raise
        raise LeftOut("no seat leads")

    def _in_order(self) -> List[int]:
        """The cards in order of play: who leads to the next trick is whom the judge names as the winner of this one."""
        plays: List[int] = []
        leader, rows = self.first_card, self._rows()
        for trick, row in enumerate(rows):
            turn = [row[(leader - self.first_card + k) % 4] for k in range(4)]
            played = turn.index(None) if None in turn else 4
            if any(card is not None for card in turn[played:]):
                raise at(self.places[4 * trick][1], f"trick {trick + 1} has a card and not the one that was played before it")
            plays += [card for card in turn[:played] if card is not None]
            if trick + 1 < len(rows):
                leader = self._judged(plays).winners[-1].seat
        return plays

    def _with_claim(self, plays: List[int]) -> bytes:
        """The tricks of Result less those that declarer's side has won are the claim."""
        said, judged = value(self.raw.tags, "Result"), self._judged(plays)
        tricks = None if said is None or judged.declarer is None else declarers_tricks(said, judged.declarer)
        if tricks is None:
            raise LeftOut(f"the play ended after {len(plays)} cards, and Result does not say with how many tricks")
        if tricks < judged.tricks:
            raise at(self.raw.tags["Result"].line, f"Result says {tricks} tricks of declarer's side, and it won {judged.tricks} before the play ended")
        return self._written(plays, tricks - judged.tricks)

    def _judged(self, plays: List[int]) -> Judgement:
        """What the judge says after these cards, all other tricks given to the defenders."""
        return judge(self._written(plays, 0))

    def _written(self, plays: List[int], claim: Optional[int]) -> bytes:
        return write_record(self.board, self.table, self.holders, self.calls, plays, claim)
