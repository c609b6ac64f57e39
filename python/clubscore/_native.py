"""The functions of `libjudge.so` and `libtally.so`, with the types of their arguments, and numbers and bytes brought to what C can hold.

The shared libraries stand beside this file: `make python` puts them there. They are trusted to be those of the headers `judge.h`, `judge_words.h` and
`tally.h` whose numbers stand here.
"""
from __future__ import annotations

import ctypes
import operator
import os
from typing import Any, Callable, Iterable, Mapping, Union

Bytes = Union[bytes, bytearray, memoryview]

ANSWER_BYTES, REVOKE_BYTES, FAILURE_BYTES, WINNER_BYTES, RECORD_MOST, SLIP_MOST, WORDS_MOST = 7, 48, 52, 26, 505, 72, 96
TALLY_BYTES, POINTS_BYTES, CELL_BYTES, DEAL_BYTES, PLACES = 398, 4, 9, 13, 128

_MOST_U8, _MOST_U32, _MOST_I32 = 0xFF, 0xFFFFFFFF, 0x7FFFFFFF

_HERE = os.path.dirname(os.path.abspath(__file__))
_U32, _I32, _SIZE = ctypes.c_uint32, ctypes.c_int32, ctypes.c_size_t
_GIVEN = [ctypes.c_char_p, _SIZE]
_LENT = [ctypes.c_void_p, _SIZE]


def _library(name: str) -> ctypes.CDLL:
    path = os.path.join(_HERE, name)
    if not os.path.exists(path):
        raise ImportError(f"clubscore needs {path}, which is missing: `make python` in the checkout puts it there")
    try:
        return ctypes.CDLL(path)
    except OSError as why:
        raise ImportError(f"clubscore cannot load {path}: {why}") from why


def _function(library: ctypes.CDLL, name: str, arguments: list, result: Any = _U32) -> Callable[..., int]:
    """A function of a library. One that an older library does not have says so when it is called, so that the others can be used."""
    try:
        function = getattr(library, name)
    except AttributeError:
        return _missing(f"clubscore needs the function {name}, which {library._name} does not have: `make python` builds the library that does")
    function.argtypes, function.restype = arguments, result
    return function


def _missing(words: str) -> Callable[..., int]:
    def missing(*_: Any) -> int:
        raise ImportError(words)

    return missing


_judge, _tally = _library("libjudge.so"), _library("libtally.so")

judge_record = _function(_judge, "judge_record", _GIVEN + 4 * _LENT)
judge_write_record = _function(_judge, "judge_write_record", [_U32, _U32] + 3 * _GIVEN + [_U32, _U32] + _LENT)
judge_best_play = _function(_judge, "judge_best_play", _GIVEN)
judge_read_pbn = _function(_judge, "judge_read_pbn", _GIVEN + [_U32] + _LENT)
judge_slip = _function(_judge, "judge_slip", _GIVEN + _LENT)
judge_dealer = _function(_judge, "judge_dealer", [_U32])
judge_vulnerable = _function(_judge, "judge_vulnerable", [_U32])
judge_words = _function(_judge, "judge_words", [_U32, _U32] + _LENT, _SIZE)

tally_fresh = _function(_tally, "tally_fresh", [_U32] + _LENT)
tally_add = _function(_tally, "tally_add", _GIVEN + [_I32] + _GIVEN + _LENT)
tally_merge = _function(_tally, "tally_merge", _GIVEN + _GIVEN + _LENT)
tally_matchpoints = _function(_tally, "tally_matchpoints", _GIVEN + [_I32] + _GIVEN + _LENT)
tally_award = _function(_tally, "tally_award", [_U32] + _LENT)
tally_cell = _function(_tally, "tally_cell", _GIVEN + [_I32] + _GIVEN + _LENT)


def words(number: int, place: int) -> str:
    """The words that the programs print for a refusal; empty where there is no such refusal or place."""
    buffer = ctypes.create_string_buffer(WORDS_MOST)
    length = judge_words(u32(number), u32(place), buffer, WORDS_MOST)
    return buffer.raw[:length].decode("ascii") if length < WORDS_MOST else ""


def u32(number: int) -> int:
    """A number as `uint32_t`; one that it cannot hold becomes the greatest, which the rules refuse as they refuse any that is too great."""
    number = operator.index(number)
    return number if 0 <= number <= _MOST_U32 else _MOST_U32


def i32(number: int) -> int:
    """A number as `int32_t`; one that it cannot hold becomes the greatest, which is no valid score."""
    number = operator.index(number)
    return number if -_MOST_I32 <= number <= _MOST_I32 else _MOST_I32


def given(value: Bytes) -> bytes:
    """Bytes from `bytes`, `bytearray` or `memoryview`; anything else is a TypeError."""
    if isinstance(value, bytes):
        return value
    if isinstance(value, (bytearray, memoryview)):
        return bytes(value)
    raise TypeError(f"bytes, bytearray or memoryview expected, not {type(value).__name__}")


def numbers(values: Iterable[int]) -> bytes:
    """A sequence of numbers as an array of `uint8_t` of its own, apart from whatever was given. What a byte cannot hold becomes 255, which no list of a
    record has."""
    if isinstance(values, (str, Mapping)) or not hasattr(values, "__len__") or not hasattr(values, "__getitem__"):
        raise TypeError(f"a sequence of numbers expected, not {type(values).__name__}")
    listed = list(values)
    try:
        return bytes(listed)
    except (ValueError, OverflowError):
        return bytes(number if 0 <= number <= _MOST_U8 else _MOST_U8 for number in map(operator.index, listed))


def apart(block: bytes) -> bytes:
    """The same bytes at another address: C wants slices that do not overlap, and Python may share equal objects."""
    return bytes(bytearray(block))
