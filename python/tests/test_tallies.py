"""Tallies, cells and reductions: results worked out by hand or by Law 78A on the list itself, and every refusal."""
import copy
import functools
import multiprocessing
import operator
import pickle
import random
import struct
import unittest

from clubscore import Alone, Awarded, Played, Refused, Result, Tally, award, judge, reduce_blocks

from .common import MIXED, SUITS, holders_of
from .test_judging import refused

OTHER = tuple(holders_of(MIXED))


def tally_of(scores, board=7, deal=SUITS):
    return functools.reduce(lambda tally, score: tally.add(score, deal), scores, Tally(board))


def by_law(scores, score):
    """Law 78A by comparing one result with every other."""
    others = list(scores)
    others.remove(score)
    return sum(2 for other in others if other < score) + sum(1 for other in others if other == score)


def bits(number):
    return struct.pack(">d", number).hex()


class Tallies(unittest.TestCase):
    def test_example(self):
        tally = tally_of([420, 420, -50, 450])
        half = Played(50.0)
        self.assertEqual(tally.results(), (Result(450, 1, 6, 0, Played(100.0)), Result(420, 2, 3, 3, half), Result(-50, 1, 0, 6, Played(0.0))))
        self.assertEqual((tally.board, tally.holders), (7, SUITS))
        self.assertEqual((Tally(7).holders, Tally(7).results()), (None, ()))
        self.assertEqual(tally_of([420]).results(), (Result(420, 1, 0, 0, Alone()),))

    def test_matchpoints_and_percentages(self):
        chance = random.Random(78)
        for _ in range(60):
            scores = [10 * chance.randint(-12, 12) for _ in range(chance.randint(2, 128))]
            tally = tally_of(scores)
            for score in set(scores):
                ns, most = by_law(scores, score), 2 * (len(scores) - 1)
                self.assertEqual(tally.matchpoints(score, SUITS), (ns, most - ns))
                self.assertEqual(bits(tally.cell(score, SUITS).percent), bits((100 * ns) / most))

    def test_merge_in_any_order(self):
        chance = random.Random(87)
        scores = [10 * chance.randint(-760, 760) for _ in range(128)]
        due = tally_of(scores)
        for _ in range(20):
            chance.shuffle(scores)
            parts = [tally_of(scores[at : at + 16]) for at in range(0, 128, 16)]
            self.assertEqual(sum(parts, start=Tally(7)), due)
            while len(parts) > 1:
                a, b = parts.pop(chance.randrange(len(parts))), parts.pop(chance.randrange(len(parts)))
                parts.append(a + b)
            self.assertEqual(parts[0], due)
        self.assertEqual(functools.reduce(operator.add, [due, Tally(7)]), due)

    def test_same_object_twice(self):
        tally = tally_of([420, -50])
        self.assertEqual(tally + tally, tally_of([420, -50, 420, -50]))
        self.assertEqual(reduce_blocks(bytes(tally), bytes(tally)), bytes(tally + tally))
        self.assertEqual(refused(tally.add, 0, bytes(tally)), (4, 4))

    def test_immutable_equal_hashable(self):
        tally = tally_of([420])
        self.assertEqual(len({tally, tally_of([420]), Tally(7)}), 2)
        self.assertNotEqual(tally, bytes(tally))
        self.assertNotEqual(tally, None)
        for change in (
            lambda: setattr(tally, "board", 8),
            lambda: setattr(tally, "_block", b""),
            lambda: delattr(tally, "_block"),
            lambda: setattr(tally, "x", 1),
        ):
            self.assertRaises(AttributeError, change)
        before = bytes(tally)
        tally.add(10, SUITS)
        self.assertEqual(bytes(tally), before)
        self.assertRaises(TypeError, lambda: tally + bytes(tally))
        self.assertRaises(TypeError, lambda: tally + 1)
        self.assertRaises(TypeError, sum, [tally])

    def test_bytes(self):
        tally = tally_of([420, -50])
        for kind in (bytes, bytearray, memoryview):
            self.assertEqual(Tally.from_bytes(kind(bytes(tally))), tally)
        block = bytearray(bytes(tally))
        same = Tally.from_bytes(block)
        block[0] = 8
        self.assertEqual(same, tally)
        swapped = bytearray(bytes(tally))
        swapped[14:16], swapped[16:18] = swapped[16:18], swapped[14:16]
        for wrong in (b"", bytes(398), bytes(tally)[:-1], bytes(tally) + b"\0", swapped, b"\x80" + bytes(397), b"\x07" + b"\xff" * 397):
            self.assertEqual(refused(Tally.from_bytes, wrong), (17, 0))
        self.assertEqual(Tally.from_bytes(b"\x07" + bytes(397)), Tally(7))

    def test_repr(self):
        self.assertEqual(repr(tally_of([420])), "<Tally of board 7, 1 result>")


class Copies(unittest.TestCase):
    def test_pickle_and_copy(self):
        tally = tally_of([420, -50])
        for protocol in range(pickle.HIGHEST_PROTOCOL + 1):
            self.assertEqual(pickle.loads(pickle.dumps(tally, protocol)), tally)
            for value in (
                Refused(28, 0),
                Played(50.0),
                Alone(),
                Awarded(60.0),
                tally.results()[0],
                judge(bytes.fromhex("0201 0000001555555AAAAAABFFFFFF0200000000")),
            ):
                self.assertEqual(pickle.loads(pickle.dumps(value, protocol)), value)
        self.assertEqual((copy.copy(tally), copy.deepcopy([tally])), (tally, [tally]))
        refusal = pickle.loads(pickle.dumps(Refused(6, 7)))
        self.assertEqual((type(refusal), refusal.number, refusal.place, str(refusal)), (Refused, 6, 7, "call 7: bid not above the last bid"))

    def test_forged_pickle(self):
        forged = pickle.dumps(Tally(7), 4).replace(bytes(Tally(7)), bytes(398))
        self.assertEqual(refused(pickle.loads, forged), (17, 0))


class Refusals(unittest.TestCase):
    def test_numbers(self):
        tally = tally_of([420])
        full = tally_of([420] * 128)
        self.assertEqual([refused(Tally, board) for board in (0, 128, -1, 2**32 + 7, 2**70)], [(3, 0)] * 5)
        for score in (15, 7610, -7610, 2**31, -(2**31), 2**32 + 420, 2**32 - 50, 2**80, -(2**80)):
            self.assertEqual((refused(tally.add, score, SUITS), refused(tally.matchpoints, score, SUITS), refused(tally.cell, score, SUITS)), ((20, 0),) * 3)
        for deal, place in ((SUITS[:51], 4), ((), 4), (SUITS[:51] + (4,), 4), (SUITS[:51] + (-1,), 4), (SUITS[:51] + (259,), 4), (SUITS[:51] + (1,), 1)):
            self.assertEqual((refused(tally.add, 420, deal), refused(tally.cell, 420, deal)), ((4, place),) * 2)
        self.assertEqual(refused(operator.add, tally, tally_of([420], board=8)), (18, 0))
        self.assertEqual((refused(full.add, 420, SUITS), refused(operator.add, full, tally)), ((19, 0),) * 2)
        self.assertEqual((refused(tally.matchpoints, 430, SUITS), refused(tally.cell, 430, SUITS)), ((21, 0),) * 2)
        self.assertEqual(
            (refused(tally.add, 420, OTHER), refused(operator.add, tally, tally_of([0], deal=OTHER)), refused(tally.cell, 420, OTHER)), ((28, 0),) * 3
        )
        self.assertEqual([refused(award, percent) for percent in (0, 55, 61, -60, 2**32 + 60, 2**64 + 50)], [(20, 0)] * 6)
        self.assertEqual([award(percent) for percent in (60, 50, 40)], [Awarded(60.0), Awarded(50.0), Awarded(40.0)])

    def test_words(self):
        due = {
            17: "a tally that is not as described",
            18: "tallies of two boards",
            19: "more than 128 results",
            20: "a score that is not valid",
            21: "a score that no result has",
            28: "a fouled board, results of two deals",
        }
        self.assertEqual({number: str(Refused(number, 0)) for number in due}, due)
        self.assertEqual(str(Refused(4, 4)), "deal: a card is in no hand")
        self.assertEqual(str(Refused(99, 5)), "refusal 99, place 5")

    def test_types(self):
        tally = tally_of([420])
        for wrong in (1.0, "1", None):
            for call in (
                Tally,
                award,
                lambda score: tally.add(score, SUITS),
                lambda score: tally.matchpoints(score, SUITS),
                lambda score: tally.cell(score, SUITS),
            ):
                self.assertRaises(TypeError, call, wrong)
        for wrong in ("0" * 52, 7, None, 0.5):
            self.assertRaises(TypeError, tally.add, 420, wrong)
        for wrong in ("x", 398, None, [0] * 398):
            self.assertRaises(TypeError, Tally.from_bytes, wrong)
            self.assertRaises(TypeError, reduce_blocks, wrong, bytes(tally))
            self.assertRaises(TypeError, reduce_blocks, bytes(tally), wrong)


class Reductions(unittest.TestCase):
    def test_blocks(self):
        seven, eight, zeros = bytes(tally_of([420])), bytes(Tally(8)), bytes(398)
        self.assertEqual(reduce_blocks(seven, eight), zeros)
        for other in (b"", b"\x07", seven + b"\0", zeros, seven):
            merged = reduce_blocks(seven, other)
            self.assertEqual(merged, reduce_blocks(other, seven))
            self.assertEqual(merged, bytes(tally_of([420, 420])) if other == seven else zeros)
        self.assertEqual(reduce_blocks(bytearray(seven), memoryview(bytes(Tally(7)))), seven)


def _section(scores):
    return tally_of(scores)


def _fouled(scores):
    return tally_of([0], deal=OTHER) + tally_of(scores)


class Pools(unittest.TestCase):
    """Tallies made in other processes, merged in whatever order these end."""

    def test_merge_as_they_come(self):
        chance = random.Random(5)
        scores = [10 * chance.randint(-60, 60) for _ in range(120)]
        parts = [scores[at : at + 10] for at in range(0, 120, 10)]
        with multiprocessing.get_context("spawn").Pool(3) as pool:
            for _ in range(3):
                chance.shuffle(parts)
                merged = sum(pool.imap_unordered(_section, parts), start=Tally(7))
                self.assertEqual(merged, tally_of(scores))
            with self.assertRaises(Refused) as caught:
                pool.apply(_fouled, ([420],))
        self.assertEqual((caught.exception.number, str(caught.exception)), (28, "a fouled board, results of two deals"))
