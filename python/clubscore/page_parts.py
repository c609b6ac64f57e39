"""Parts of the page: names, suits, cards, contracts, the diagram of the hands, and percentages."""
from __future__ import annotations

import html
import json
from fractions import Fraction

SUITS = {"S": ("♠", "spades"), "H": ("♥", "hearts"), "D": ("♦", "diamonds"), "C": ("♣", "clubs")}
SEATS = {"N": "North", "E": "East", "S": "South", "W": "West"}
_RANKS = {"T": "10"}
_DOUBLINGS = {"": "", "X": ("×", " doubled"), "XX": ("××", " redoubled")}
_NAMES = {
    "TRICKS": "tricks",
    "OVERTRICKS": "overtricks",
    "UNDERTRICKS": "undertricks",
    "PARTSCORE": "partscore",
    "GAME": "game",
    "SLAM": "slam",
    "DOUBLING": "doubling",
}
_NONE = "—"
#: Signs that HTML cannot have, or that would be taken for another: each is shown as a sign that stands for one that cannot be shown.
_CONTROLS = {code: "\ufffd" for code in list(range(32)) + list(range(127, 160)) + [0xFFFE, 0xFFFF]}


def plain(text: str) -> str:
    """Text as text."""
    return html.escape(text.translate(_CONTROLS).encode("utf-8", "backslashreplace").decode("utf-8"))


def bdi(text: str) -> str:
    """A name or file, apart from the direction of what stands around it."""
    return f"<bdi>{plain(text)}</bdi>"


def data(field: str, value: object) -> str:
    """The attributes by which a value can be read back; none where there is none."""
    return "" if value is None else f' data-field="{field}" data-value="{html.escape(json.dumps(value, separators=(",", ":")))}"'


def suit(letter: str) -> str:
    sign, word = SUITS[letter]
    return f'<i class="{letter}" role="img" aria-label="{word}">{sign}\ufe0e</i>'


def card(word: str) -> str:
    return suit(word[0]) + _RANKS.get(word[1], word[1])


def contract(word: str) -> str:
    """`4♠×`, and in words for who listens."""
    if word == "Pass":
        return "Pass"
    bid = word.rstrip("X")
    sign, said = _DOUBLINGS[word[len(bid) :]] or ("", "")
    doubled = f'<i role="img" aria-label="{said.strip()}">{sign}</i>' if sign else ""
    return bid[0] + ("NT" if bid[1:] == "NT" else suit(bid[1:])) + doubled


def minus(number: int) -> str:
    return f"−{-number}" if number < 0 else str(number)


def item(one: dict) -> str:
    return f'<dt>{_NAMES[one["name"]]}</dt><dd>{minus(one["points"])}</dd>'


def revoke(one: dict) -> str:
    return f'{SEATS[one["seat"]]} revoked on trick {one["trick"]} ({suit(one["suit"])})'


def failure(one: dict) -> str:
    return f'{SEATS[one["seat"]]} did not play a penalty card on trick {one["trick"]}, but {card(one["card"])}'


def shown_percent(exact: Fraction) -> str:
    """Two decimals, half up from the exact fraction.

    >>> shown_percent(Fraction(25, 8)), shown_percent(Fraction(775, 8)), shown_percent(Fraction(100))
    ('3.13', '96.88', '100.00')
    """
    hundredths = (200 * exact.numerator + exact.denominator) // (2 * exact.denominator)
    return f"{hundredths // 100}.{hundredths % 100:02}"


def diagram(board: dict) -> str:
    """The four hands about dealer and vulnerability; these alone where there is no deal."""
    hands = "" if board["hands"] is None else "".join(_hand(board["board"], seat, board["hands"][seat]) for seat in "NWES")
    return f'<div class="diagram">{hands}{_middle(board)}</div>\n'


def _middle(board: dict) -> str:
    sides = {"None": "", "NS": " ns", "EW": " ew", "All": " ns ew"}[board["vulnerable"]]
    return f'<div class="middle{sides}"><b><span class="vh">Board </span>{board["board"]}</b>Dealer {board["dealer"]}<br>Vul {board["vulnerable"]}</div>'


def _hand(board: int, seat: str, hand: str) -> str:
    place = {"S": "south"}.get(seat, seat)
    suits = "".join(f"<li>{suit(letter)}{_ranks(ranks)}</li>" for letter, ranks in zip("SHDC", hand.split(".")))
    value = html.escape(json.dumps(hand))
    return f'<div class="hand {place}" data-board="{board}" data-hand="{seat}" data-value="{value}"><h3>{SEATS[seat]}</h3><ul>{suits}</ul></div>'


def _ranks(ranks: str) -> str:
    return "\u2009".join(_RANKS.get(rank, rank) for rank in ranks) or _NONE
