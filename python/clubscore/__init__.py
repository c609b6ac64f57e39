"""Duplicate bridge scored by a proved library: records judged and written, matchpoint tallies that merge in any order, and cells of a page of results.

Seats are N 0, E 1, S 2, W 3; suits clubs 0 to spades 3, notrump 4; a card is 13 * suit + rank, rank 0 for the two. `docs/RULES.md` has the rules.
"""
from .judging import Contract, Failure, Item, Judgement, Revoke, Winner, best_play, dealer, judge, read_pbn, slip, vulnerable, write_record
from .refused import Refused
from .tallies import Alone, Awarded, Cell, Played, Result, Tally, award, reduce_blocks

__all__ = [
    "Alone",
    "Awarded",
    "Cell",
    "Contract",
    "Failure",
    "Item",
    "Judgement",
    "Played",
    "Refused",
    "Result",
    "Revoke",
    "Tally",
    "Winner",
    "award",
    "best_play",
    "dealer",
    "judge",
    "read_pbn",
    "reduce_blocks",
    "slip",
    "vulnerable",
    "write_record",
]
