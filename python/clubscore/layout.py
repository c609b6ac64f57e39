"""Fields of a record that the judge has accepted, by the layout table of `docs/RULES.md`, 3. Nothing here is judged."""
from __future__ import annotations

from typing import Optional, Sequence, Tuple

from ._native import DEAL_BYTES

_CALL_COUNT, _CALLS = 120, 129
_CODE_BITS = {52: 13, 53: 10}


def unpack_deal(deal: Sequence[int]) -> Tuple[int, ...]:
    """The holder of each card from the thirteen bytes of a deal, two bits a card, the most significant first."""
    return tuple(deal[card // 4] >> (6 - 2 * (card % 4)) & 3 for card in range(52))


def holders(record: bytes) -> Tuple[int, ...]:
    """The seat that was dealt each card."""
    return unpack_deal(record[2 : 2 + DEAL_BYTES])


def lead(record: bytes) -> Optional[int]:
    """The first card that was played; none where no card was."""
    bits = _Bits(record)
    at = _CALLS + 6 * bits.read(_CALL_COUNT, 9)
    if bits.read(at, 6) == 0:
        return None
    at += 6
    while bits.read(at, 6) in _CODE_BITS:
        at += _CODE_BITS[bits.read(at, 6)]
    return bits.read(at, 6)


class _Bits:
    def __init__(self, record: bytes) -> None:
        self._number, self._length = int.from_bytes(record, "big"), 8 * len(record)

    def read(self, at: int, width: int) -> int:
        return self._number >> (self._length - at - width) & ((1 << width) - 1)
