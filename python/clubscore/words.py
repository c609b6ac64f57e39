"""Letters and numbers of seats, suits, ranks, cards, calls and vulnerability, as Portable Bridge Notation and the programs write them."""
from __future__ import annotations

from typing import Dict, List, Sequence

SEATS = "NESW"
SUITS = "CDHS"
STRAINS = ("C", "D", "H", "S", "NT")
RANKS = "23456789TJQKA"
DOUBLINGS = ("", "X", "XX")
VULNERABLE = ("None", "NS", "EW", "All")

#: Each card's two letters, by its number.
CARDS: List[str] = [suit + rank for suit in SUITS for rank in RANKS]
CARD_NUMBERS: Dict[str, int] = {card: number for number, card in enumerate(CARDS)}

#: Each call's word, by its number.
CALLS: List[str] = ["Pass", "X", "XX"] + [f"{level}{strain}" for level in range(1, 8) for strain in STRAINS]

#: The code that marks the next call as an insufficient bid that was accepted.
MARK = 38


def hand(holders: Sequence[int], seat: int) -> str:
    """A seat's cards, spades first and the highest first: `AKQ.876.543.JT92`.

    >>> hand([0] * 13 + [1] * 13 + [2] * 13 + [3] * 13, 3)
    'AKQJT98765432...'
    """
    suits = ("".join(RANKS[rank] for rank in reversed(range(13)) if holders[13 * suit + rank] == seat) for suit in reversed(range(4)))
    return ".".join(suits)
