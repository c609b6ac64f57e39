"""`results`: records judged, tallied by board and ranked, as one object of JSON that is the same for every order of the records."""
from __future__ import annotations

import json
import sys
from fractions import Fraction
from typing import Dict, Iterable, List, NamedTuple, Optional, Sequence, Tuple

from . import layout
from .files import LEFT_OUT, NOT_READ, OK, NotRead, read, read_record, write_whole
from .judging import Judgement, dealer, judge, slip, vulnerable
from .pairs import Pairs, Seating, read_pairs
from .ranking import Counted, percentage, rankings
from .refused import Refused
from .tallies import Alone, Tally, award
from .words import CARDS, SEATS, SUITS, VULNERABLE, hand

FORMAT = "clubscore results 1"
KINDS = ("refused", "same", "two", "board", "pairs", "no record", "no pair", "award")
_FOULED = 28


class Record(NamedTuple):
    """An accepted record that counts, with all files that have it."""

    files: List[str]
    content: bytes
    judgement: Judgement


def write_results(records: Sequence[str], pairs: Optional[str], out: str) -> int:
    """Reads records and pairs and writes the results; gives the exit status. Nothing is written where something cannot be read."""
    contents, missing = [], []
    for name in records:
        try:
            contents.append((name, read_record(name)))
        except OSError as why:
            missing.append(f"{name}: {why.strerror or why}")
        except NotRead as why:
            missing.append(str(why))
    for words in missing:
        print(f"clubscore: {words}", file=sys.stderr)
    if missing:
        return NOT_READ
    found = results(contents, None if pairs is None else read_pairs(pairs, read(pairs)))
    inputs = list(records) + ([] if pairs is None else [pairs])
    write_whole(out, (json.dumps(found, indent=1, allow_nan=False) + "\n").encode("ascii"), inputs)
    for entry in found["left_out"]:
        print(f"clubscore: {_told(entry)}", file=sys.stderr)
    return LEFT_OUT if found["left_out"] else OK


def _told(entry: dict) -> str:
    names = (("board", entry["board"]), ("table", entry["table"]), ("line", entry["line"]))
    where = entry["files"] + [f"{name} {number}" for name, number in names if number is not None]
    return f"{', '.join(where)}: {entry['kind']}: {entry['words']}"


def results(records: Iterable[Tuple[str, bytes]], pairs: Optional[Pairs] = None) -> dict:
    """The results of records, each with the name of its file, as `results.schema.json` has them."""
    left_out: List[dict] = []
    counting = _counting(records, left_out)
    seatings = pairs.seatings if pairs is not None else {}
    boards, counted = [], []
    for number in sorted({place[0] for place in counting} | {place[0] for place, s in seatings.items() if s.awards is not None}):
        board = _Board(
            number,
            {place[1]: record for place, record in counting.items() if place[0] == number},
            {place[1]: seating for place, seating in seatings.items() if place[0] == number},
        )
        boards.append(board.told())
        counted += board.counted
        if board.refused is not None:
            left_out.append(_left_out("board", str(board.refused), board=number, number=board.refused.number, place=board.refused.place))
    if pairs is not None:
        left_out += _seats_left_out(counting, pairs)
    ranking = rankings(list(seatings.values()), counted)
    return {"format": FORMAT, "boards": boards, "ranking": ranking, "left_out": sorted(left_out, key=_order)}


def _left_out(
    kind: str,
    words: str,
    files: Sequence[str] = (),
    board: Optional[int] = None,
    table: Optional[int] = None,
    line: Optional[int] = None,
    number: Optional[int] = None,
    place: Optional[int] = None,
) -> dict:
    return {"kind": kind, "files": sorted(files), "board": board, "table": table, "line": line, "number": number, "place": place, "words": words}


def _order(entry: dict) -> tuple:
    numbers = tuple(-1 if entry[key] is None else entry[key] for key in ("board", "table", "line"))
    return (KINDS.index(entry["kind"]),) + numbers + (entry["files"], entry["words"])


def _counting(records: Iterable[Tuple[str, bytes]], left_out: List[dict]) -> Dict[Tuple[int, int], Record]:
    """The accepted records by board and table. The same bytes count once, and of different ones none counts."""
    judged: Dict[Tuple[int, int], Dict[bytes, Record]] = {}
    for name, content in records:
        try:
            judgement = judge(content)
        except Refused as refused:
            left_out.append(_left_out("refused", str(refused), [name], number=refused.number, place=refused.place))
            continue
        place = judged.setdefault((judgement.board, judgement.table), {})
        place.setdefault(content, Record([], content, judgement)).files.append(name)
    counting = {}
    for (board, table), found in judged.items():
        files = [file for record in found.values() for file in record.files]
        if len(found) > 1:
            left_out.append(_left_out("two", f"{len(found)} records of one board and table that differ: none counts", files, board, table))
            continue
        if len(files) > 1:
            left_out.append(_left_out("same", f"the same record {len(files)} times: it counts once", files, board, table))
        counting[board, table] = next(iter(found.values()))
    return counting


def _seats_left_out(counting: Dict[Tuple[int, int], Record], pairs: Pairs) -> List[dict]:
    """Rows without a record, records without a row, and awards where there is a record."""
    told = [_left_out("pairs", fault.words, line=fault.line) for fault in pairs.faults]
    for (board, table), seating in pairs.seatings.items():
        if seating.awards is None and (board, table) not in counting:
            told.append(_left_out("no record", "a row without an award and without a record that counts", (), board, table, seating.line))
        if seating.awards is not None and (board, table) in counting:
            told.append(_left_out("award", "an award where there is a record: the record counts", (), board, table, seating.line))
    for (board, table), record in counting.items():
        if (board, table) not in pairs.seatings:
            told.append(_left_out("no pair", "a record without a row that says who played it: it counts on its board", record.files, board, table))
    return told


class _Board:
    """A board's records and rows, and its tally, or why there is none."""

    def __init__(self, number: int, records: Dict[int, Record], seatings: Dict[int, Seating]) -> None:
        self.number, self.records, self.seatings = number, records, seatings
        self.tally, self.refused = self._tallied()
        self.count = sum(result.count for result in self.tally.results())
        self.counted: List[Counted] = []

    def _tallied(self) -> Tuple[Tally, Optional[Refused]]:
        """The tally of all records; where calls are refused, 28 before 19, which does not depend on their order."""
        tally, refusals = Tally(self.number), []
        for table in sorted(self.records):
            record = self.records[table]
            try:
                tally = tally.add(record.judgement.score, layout.holders(record.content))
            except Refused as refused:
                refusals.append(refused)
        refusals.sort(key=lambda refused: refused.number != _FOULED)
        return tally, refusals[0] if refusals else None

    def told(self) -> dict:
        awards = {table: seating.awards for table, seating in self.seatings.items() if seating.awards is not None}
        tables = sorted(set(self.records) | set(awards))
        rows = [self._played(table) if table in self.records else self._awarded(table, awards[table]) for table in tables]
        holders = None if self.refused is not None and self.refused.number == _FOULED else self.tally.holders
        hands = None if holders is None else {seat: hand(holders, number) for number, seat in enumerate(SEATS)}
        refused = None if self.refused is None else {"number": self.refused.number, "place": self.refused.place, "words": str(self.refused)}
        return {
            "board": self.number,
            "dealer": SEATS[dealer(self.number)],
            "vulnerable": VULNERABLE[vulnerable(self.number)],
            "hands": hands,
            "refused": refused,
            "rows": rows,
        }

    def _awarded(self, table: int, awards: Tuple[int, int]) -> dict:
        ns, ew = awards
        self.counted.append(Counted(self.seatings[table], Fraction(ns), Fraction(ew)))
        return self._row(table, "awarded", ns_percent=award(ns).percent, ew_percent=award(ew).percent)

    def _played(self, table: int) -> dict:
        record = self.records[table]
        told = _judged(record)
        if self.refused is not None:
            return self._row(table, "unscored", **told)
        score, holders = record.judgement.score, layout.holders(record.content)
        ns, ew = self.tally.matchpoints(score, holders)
        cell = self.tally.cell(score, holders)
        if isinstance(cell, Alone):
            return self._row(table, "alone", ns_matchpoints=ns, ew_matchpoints=ew, **told)
        if table in self.seatings:
            self.counted.append(Counted(self.seatings[table], percentage(ns, self.count), percentage(ew, self.count)))
        ew_percent = 100 * ew / (2 * (self.count - 1))
        return self._row(table, "played", ns_matchpoints=ns, ew_matchpoints=ew, ns_percent=cell.percent, ew_percent=ew_percent, **told)

    def _row(self, table: int, kind: str, **told: object) -> dict:
        seating = self.seatings.get(table)
        row: Dict[str, object] = {"table": table, "ns": seating.ns if seating else None, "ew": seating.ew if seating else None, "kind": kind}
        row.update({key: [] if key in ("revokes", "failures", "items") else None for key in _TOLD})
        row.update(told)
        return row


_TOLD = (
    "contract",
    "declarer",
    "lead",
    "tricks",
    "tricks_after",
    "revokes",
    "failures",
    "score",
    "items",
    "ns_matchpoints",
    "ew_matchpoints",
    "ns_percent",
    "ew_percent",
)


def _judged(record: Record) -> dict:
    """What is told of a record's judgement; of a passed-out one the contract and the score alone."""
    judgement, lead = record.judgement, layout.lead(record.content)
    if judgement.declarer is None or lead is None:
        return {"contract": "Pass", "score": judgement.score}
    return {
        "contract": str(judgement.contract),
        "declarer": SEATS[judgement.declarer],
        "lead": CARDS[lead],
        "tricks": judgement.tricks,
        "tricks_after": judgement.tricks_after,
        "revokes": [{"trick": revoke.trick, "seat": SEATS[revoke.seat], "suit": SUITS[revoke.suit]} for revoke in judgement.revokes],
        "failures": [{"trick": failure.trick, "seat": SEATS[failure.seat], "card": CARDS[failure.card]} for failure in judgement.failures],
        "score": judgement.score,
        "items": [{"name": item.name, "points": item.points} for item in slip(record.content)],
    }
