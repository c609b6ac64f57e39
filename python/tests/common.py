"""What several tests use: the repository's samples, and contents of records by numbers."""
from __future__ import annotations

import os
import re

ROOT = os.path.abspath(os.path.join(os.path.dirname(__file__), "..", ".."))
SAMPLES = os.path.join(ROOT, "samples")

#: North has the clubs, East the diamonds, South the hearts, West the spades.
SUITS = tuple(card // 13 for card in range(52))
#: Each suit divided 4-3-3-3, the deal of most samples.
MIXED = "AKQ.876.543.JT92 JT9.543.AKQ2.876 876.AKQ2.JT9.543 5432.JT9.876.AKQ"


def holders_of(hands: str) -> list:
    """The holder of each card, from four hands in words from North on."""
    holders = [None] * 52
    for seat, hand in enumerate(hands.split()):
        for suit, ranks in zip((3, 2, 1, 0), hand.split(".")):
            for rank in ranks:
                holders[13 * suit + "23456789TJQKA".index(rank)] = seat
    return holders


def card(word: str) -> int:
    return 13 * "CDHS".index(word[0]) + "23456789TJQKA".index(word[1])


def cards(words: str) -> list:
    return [card(word) for word in words.split()]


def hex_bytes(path: str) -> bytes:
    with open(path, encoding="ascii") as file:
        return bytes.fromhex(re.sub("#.*", "", file.read()))


def sample(name: str) -> bytes:
    return hex_bytes(os.path.join(SAMPLES, name + ".hex"))


def expected(name: str) -> str:
    with open(os.path.join(SAMPLES, name + ".expected"), encoding="ascii") as file:
        return file.read().rstrip("\n")


def sample_names() -> list:
    return sorted(name[: -len(".hex")] for name in os.listdir(SAMPLES) if name.endswith(".hex"))
