"""Who sat where: a file in CSV with a row a table and board, and awards where a board was not played."""
from __future__ import annotations

import csv
import io
import re
from collections import Counter
from typing import Dict, List, NamedTuple, Optional, Tuple

from .files import NotRead
from .refused import Refused
from .tallies import award

COLUMNS = ("board", "table", "ns", "ew", "award_ns", "award_ew")
_DIGITS = re.compile("[0-9]{1,9}")
_MOST = {"board": 127, "table": 511}


class Seating(NamedTuple):
    """A row that can be used: its line, the pairs, and the two awards as percentages, or none."""

    line: int
    ns: str
    ew: str
    awards: Optional[Tuple[int, int]]


class Fault(NamedTuple):
    """A row that cannot be used, and why."""

    line: int
    words: str


class Pairs(NamedTuple):
    """The rows of a file, by board and table, and those that cannot be used."""

    seatings: Dict[Tuple[int, int], Seating]
    faults: List[Fault]


class _Unusable(Exception):
    pass


def read_pairs(name: str, content: bytes) -> Pairs:
    """The rows of a file; raises `NotRead` where it is no such file."""
    rows = _rows(name, content)
    if not rows or tuple(rows[0][1]) not in (COLUMNS, COLUMNS[:4]):
        raise NotRead(f"{name}: the first line is not {','.join(COLUMNS)}, of which the last two may be missing")
    width = len(rows[0][1])
    places = [(line, fields, _place(fields)) for line, fields in rows[1:] if fields]
    count = Counter(place for _, _, place in places if place is not None)
    found: Dict[Tuple[int, int], Seating] = {}
    faults: List[Fault] = []
    for line, fields, place in places:
        try:
            seating = _seating(line, fields, width)
            if place is not None and count[place] > 1:
                raise _Unusable(f"{count[place]} rows of board {place[0]} and table {place[1]}")
            if place is not None:
                found[place] = seating
        except _Unusable as why:
            faults.append(Fault(line, str(why)))
    return Pairs(found, faults)


def _rows(name: str, content: bytes) -> List[Tuple[int, List[str]]]:
    """Each row with the line on which it starts."""
    try:
        text = content.decode("utf-8-sig")
    except UnicodeDecodeError as why:
        raise NotRead(f"{name}: is not UTF-8: {why}") from why
    reader, rows, line = csv.reader(io.StringIO(text, newline="")), [], 1
    try:
        for fields in reader:
            rows.append((line, fields))
            line = reader.line_num + 1
    except csv.Error as why:
        raise NotRead(f"{name}: line {line}: {why}") from why
    return rows


def _number(field: str, column: str) -> Optional[int]:
    field = field.strip()
    number = int(field) if _DIGITS.fullmatch(field) else 0
    return number if 1 <= number <= _MOST[column] else None


def _place(fields: List[str]) -> Optional[Tuple[int, int]]:
    if len(fields) < 2:
        return None
    board, table = _number(fields[0], "board"), _number(fields[1], "table")
    return None if board is None or table is None else (board, table)


def _seating(line: int, fields: List[str], width: int) -> Seating:
    if len(fields) != width:
        raise _Unusable(f"{len(fields)} fields, not {width}")
    for field, column in zip(fields, ("board", "table")):
        if _number(field, column) is None:
            raise _Unusable(f"the {column} is not 1 to {_MOST[column]}")
    ns, ew = fields[2:4]
    for pair, side in ((ns, "NS"), (ew, "EW")):
        if not pair.strip():
            raise _Unusable(f"the pair of {side} is missing")
    if ns == ew:
        raise _Unusable("one pair on both sides")
    return Seating(line, ns, ew, _awards([field.strip() for field in fields[4:]]))


def _awards(fields: List[str]) -> Optional[Tuple[int, int]]:
    if not any(fields):
        return None
    if not all(fields):
        raise _Unusable("an award for one side alone")
    ns, ew = (_awarded(field) for field in fields)
    return ns, ew


def _awarded(field: str) -> int:
    """A percentage that the library awards."""
    percent = int(field) if _DIGITS.fullmatch(field) else 0
    try:
        award(percent)
    except Refused as refused:
        raise _Unusable("an award that is not 60, 50 or 40") from refused
    return percent
