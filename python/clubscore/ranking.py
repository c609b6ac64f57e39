"""Rankings: the mean of a pair's percentages over its boards, added as exact fractions and divided once, so that no order of boards changes a rank."""
from __future__ import annotations

from fractions import Fraction
from typing import Dict, Iterable, List, NamedTuple, Optional, Tuple

from .pairs import Seating


class Counted(NamedTuple):
    """A row of a board that has points: the exact percentages of both sides."""

    seating: Seating
    ns: Fraction
    ew: Fraction


def percentage(matchpoints: int, results: int) -> Fraction:
    """100 times the matchpoints over the most that so many results allow.

    >>> percentage(7, 6)
    Fraction(70, 1)
    """
    return Fraction(100 * matchpoints, 2 * (results - 1))


def rankings(seatings: Iterable[Seating], counted: Iterable[Counted]) -> List[dict]:
    """Two fields, NS and EW, or one where a pair sits both ways; none without a pair."""
    north, east = {s.ns for s in seatings}, {s.ew for s in seatings}
    if not north:
        return []
    got: Dict[Tuple[str, str], List[Fraction]] = {}
    both = bool(north & east)
    for row in counted:
        got.setdefault(("all" if both else "NS", row.seating.ns), []).append(row.ns)
        got.setdefault(("all" if both else "EW", row.seating.ew), []).append(row.ew)
    fields = (("all", north | east),) if both else (("NS", north), ("EW", east))
    return [{"field": field, "rows": _rows({pair: got.get((field, pair), []) for pair in pairs})} for field, pairs in fields]


def _rows(percentages: Dict[str, List[Fraction]]) -> List[dict]:
    means = {pair: _mean(some) for pair, some in percentages.items()}
    order = sorted(percentages, key=lambda pair: (means[pair] is None, -(means[pair] or 0), pair))
    rows: List[dict] = []
    for place, pair in enumerate(order, 1):
        mean = means[pair]
        rows.append(_row(_rank(mean, place, rows), pair, len(percentages[pair]), mean))
    return rows


def _mean(some: List[Fraction]) -> Optional[Fraction]:
    return sum(some, Fraction(0)) / len(some) if some else None


def _rank(mean: Optional[Fraction], place: int, rows: List[dict]) -> Optional[int]:
    """Ties share a rank: 1, 2, 2, 4."""
    if mean is None:
        return None
    return rows[-1]["rank"] if rows and rows[-1]["exact"] == _exact(mean) else place


def _row(rank: Optional[int], pair: str, boards: int, mean: Optional[Fraction]) -> dict:
    percent, exact = (None, None) if mean is None else (mean.numerator / mean.denominator, _exact(mean))
    return {"rank": rank, "pair": pair, "boards": boards, "percent": percent, "exact": exact}


def _exact(mean: Fraction) -> str:
    return f"{mean.numerator}/{mean.denominator}"
