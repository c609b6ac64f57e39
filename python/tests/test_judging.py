"""Records judged, written, read and explained: the samples' lines, which were worked out by hand, and every refusal by its number and place."""
import unittest

from clubscore import Contract, Failure, Item, Refused, Revoke, Winner, best_play, dealer, judge, read_pbn, slip, vulnerable, write_record

from .common import MIXED, SUITS, cards, expected, holders_of, sample, sample_names

SEATS, STRAINS, RANKS = "NESW", ("C", "D", "H", "S", "NT"), "23456789TJQKA"
SUIT_WORDS = ("clubs", "diamonds", "hearts", "spades")
DOUBLINGS = ("", " doubled", " redoubled")
PASSED_OUT = bytes.fromhex("02 01 00 00 00 15 55 55 5A AA AA AB FF FF FF 02 00 00 00 00")


def line(record):
    """The line of a judgement as the terminal prints it, but for best play."""
    j = judge(record)
    said = f"Board {j.board} table {j.table}: "
    if j.contract is None:
        return said + f"passed out, NS {j.score}"
    said += f"{j.contract.level}{STRAINS[j.contract.strain]}{DOUBLINGS[j.contract.doubling]} by {SEATS[j.declarer]}, {j.tricks} tricks, "
    if j.revokes:
        said += f"{j.tricks_after} after Law 64, "
    said += f"NS {j.score}"
    said += "".join(f"; revoke: trick {r.trick}, {SEATS[r.seat]}, {SUIT_WORDS[r.suit]}" for r in j.revokes)
    plays = (f"trick {f.trick}, {SEATS[f.seat]} plays {'CDHS'[f.card // 13]}{RANKS[f.card % 13]}" for f in j.failures)
    return said + "".join(f"; failure to play a penalty card: {play}" for play in plays)


def refused(call, *arguments, **named):
    """Number and place of what a call refuses."""
    try:
        call(*arguments, **named)
    except Refused as refusal:
        return refusal.number, refusal.place
    raise AssertionError("not refused")


class Samples(unittest.TestCase):
    def test_lines(self):
        for name in sample_names():
            with self.subTest(name):
                due = expected(name).split("; best play")[0]
                if name.startswith("refused-"):
                    with self.assertRaises(Refused) as caught:
                        judge(sample(name))
                    self.assertTrue(due.endswith("refused, " + str(caught.exception)), (due, str(caught.exception)))
                else:
                    self.assertEqual(line(sample(name)), due)

    def test_best_play(self):
        self.assertEqual(best_play(sample("claim-best-play")), 1)
        self.assertEqual(refused(best_play, PASSED_OUT), (31, 0))
        self.assertEqual(refused(best_play, PASSED_OUT[:10]), (2, 0))

    def test_fields(self):
        j = judge(sample("revoke-two-tricks"))
        self.assertEqual((j.board, j.table, j.declarer, j.tricks, j.tricks_after, j.score), (8, 12, 2, 6, 8, 110))
        self.assertEqual(j.contract, Contract(2, 2, 0))
        self.assertEqual(j.revokes, (Revoke(4, 1, 3),))
        self.assertEqual(len(j.winners), 13)
        self.assertEqual(j.winners[3], Winner(1, cards("H3")[0]))
        self.assertEqual(judge(sample("penalty-minor")).failures, (Failure(1, 1, cards("C8")[0]),))

    def test_passed_out(self):
        j = judge(PASSED_OUT)
        self.assertEqual((j.contract, j.declarer, j.tricks, j.tricks_after, j.revokes, j.failures, j.winners, j.score), (None, None, 0, 0, (), (), (), 0))
        self.assertEqual(slip(PASSED_OUT), ())

    def test_winners_of_complete_tricks_alone(self):
        self.assertEqual(judge(write_record(1, 1, SUITS, [7, 0, 0, 0], cards("D2 H2 S2 C2 D3"), 0)).winners, (Winner(1, 13),))
        self.assertEqual(judge(write_record(1, 1, SUITS, [7, 0, 0, 0], cards("D2 H2 S2"), 0)).winners, ())

    def test_str_of_contracts(self):
        said = [str(Contract(level, strain, doubling)) for level, strain, doubling in ((4, 3, 1), (3, 4, 0), (1, 0, 2))]
        self.assertEqual(said, ["4SX", "3NT", "1CXX"])


class Slips(unittest.TestCase):
    """Board 1, nobody vulnerable: W plays two diamonds doubled and makes nine, the example of docs/RULES.md, 14."""

    def test_items(self):
        record = write_record(1, 1, SUITS, [0, 0, 0, 9, 1, 0, 0, 0], cards("C2 D2 H2 S2"), claim=8)
        self.assertEqual(judge(record).score, -280)
        items = (Item("TRICKS", -80), Item("OVERTRICKS", -100), Item("PARTSCORE", -50), Item("DOUBLING", -50))
        self.assertEqual(slip(record), items)

    def test_down(self):
        record = write_record(1, 1, SUITS, [7, 0, 0, 0], cards("D2 H2 S2 C2"), claim=5)
        self.assertEqual(slip(record), (Item("UNDERTRICKS", -100),))

    def test_refused(self):
        self.assertEqual(refused(slip, PASSED_OUT + b"\0"), (16, 0))


class Law2(unittest.TestCase):
    """The table of docs/RULES.md, 4, for each of the 127 boards."""

    VULNERABLE = (0, 1, 2, 3, 1, 2, 3, 0, 2, 3, 0, 1, 3, 0, 1, 2)

    def test_boards(self):
        for board in range(1, 128):
            self.assertEqual((dealer(board), vulnerable(board)), ((board - 1) % 4, self.VULNERABLE[(board - 1) % 16]))

    def test_no_board(self):
        for board in (0, 128, -1, 2**32 + 7, 2**80):
            self.assertEqual((refused(dealer, board), refused(vulnerable, board)), ((3, 0), (3, 0)))


class Refusals(unittest.TestCase):
    """Each refusal of a record, and each of contents, with its place."""

    def test_records(self):
        cases = {
            b"": (2, 0),
            bytes([0, 1]): (3, 0),
            bytes([2, 0]): (3, 1),
            PASSED_OUT[:-1]: (2, 0),
            PASSED_OUT + b"\0": (16, 0),
            PASSED_OUT[:-1] + b"\1": (14, 0),
            PASSED_OUT[:2] + bytes(13) + PASSED_OUT[15:]: (4, 0),
        }
        for record, due in cases.items():
            self.assertEqual(refused(judge, record), due)
        claimed = write_record(1, 1, SUITS, [3, 0, 0, 0], cards("D2 H2 S2 C2"), 12)
        self.assertEqual(refused(judge, claimed[:-1] + bytes([claimed[-1] | 1])), (16, 0))

    def test_contents(self):
        one = [3, 0, 0, 0]
        trick = cards("D2 H2 S2 C2")
        cases = [
            ((0, 1, SUITS, one, trick, 12), (3, 0)),
            ((1, 0, SUITS, one, trick, 12), (3, 1)),
            ((1, 512, SUITS, one, trick, 12), (3, 1)),
            ((1, 1, SUITS[:51], one, trick, 12), (4, 4)),
            ((1, 1, SUITS[:51] + (0,), one, trick, 12), (4, 0)),
            ((1, 1, (), one, trick, 12), (4, 4)),
            ((1, 1, SUITS, [39], trick, 12), (5, 0)),
            ((1, 1, SUITS, [4, 3, 0, 0, 0], trick, 12), (6, 1)),
            ((1, 1, SUITS, [1], trick, 12), (7, 0)),
            ((1, 1, SUITS, [0] * 5, [], None), (8, 4)),
            ((1, 1, SUITS, [3, 0], trick, 12), (9, 2)),
            ((1, 1, SUITS, [0] * 4, trick, None), (10, 4)),
            ((1, 1, SUITS, one, [54], 1), (11, 0)),
            ((1, 1, SUITS, one, cards("D2 S2"), 1), (12, 1)),
            ((1, 1, SUITS, one, trick, None), (13, 4)),
            ((1, 1, SUITS, one, [], 1), (14, 0)),
            ((1, 1, SUITS, one, trick, 13), (15, 13)),
            ((1, 1, SUITS, one, trick + [0], 12), (23, 4)),
            ((1, 1, SUITS, [38, 3, 0, 0, 0], trick, 12), (24, 0)),
            ((1, 1, SUITS, one, [52, 0, 0] + trick, 12), (25, 0)),
            ((1, 1, SUITS, one, [53, 1, 1] + trick, 12), (26, 0)),
            ((1, 1, SUITS, one, [52, 14, 0] * 41 + trick, 12), (25, 0)),
            ((1, 1, SUITS, [0] * 512, [], None), (33, 511)),
            ((1, 1, SUITS, one, [0] * 70, None), (10, 63)),
        ]
        for contents, due in cases:
            self.assertEqual(refused(write_record, *contents), due, contents)

    def test_too_many_codes(self):
        """All cards of E and W exposed, W's spades picked up by a ban and exposed again: 40 codes. Any other is one too many."""
        diamonds, spades = ([number for rank in range(13) for number in (52, 13 * suit + rank, 0)] for suit in (1, 3))
        codes = diamonds + spades + [53, 1, 3] + spades
        self.assertEqual(judge(write_record(1, 1, SUITS, [3, 0, 0, 0], codes + cards("D2 H2 S2 C2"), 12)).score, 190)
        self.assertEqual(refused(write_record, 1, 1, SUITS, [3, 0, 0, 0], codes + [53, 1, 3] + cards("D2 H2 S2 C2"), 12), (27, 0))

    def test_texts(self):
        deal = f'[Deal "N:{MIXED}"]\n'
        auction = '[Board "1"]\n' + deal + '[Auction "N"]\n'
        cases = {
            "": (32, 1),
            auction: (32, 4),
            auction + "1C Pass\n": (9, 2),
            auction.replace('Auction "N"', 'Auction "E"') + "Pass\n": (32, 3),
            auction.replace('"1"', '"128"') + "Pass\n": (3, 0),
            auction + "1C Pass Pass Pass\n": (32, 5),
            auction + "1D 1C\n": (6, 1),
            auction + "Pass Pass Pass Pass\n" + "Pass\n": (8, 4),
            auction + "X\n": (7, 0),
            auction + "Pass Pass Pass Pass\n" * 128: (33, 511),
        }
        for text, due in cases.items():
            self.assertEqual(refused(read_pbn, text.encode(), 1), due, text)
        self.assertEqual(refused(read_pbn, (auction + "Pass\n").encode(), 0), (3, 1))
        self.assertEqual(refused(read_pbn, (auction + "1C Pass Pass Pass\n" + '[Play "E"]\n' + "DA D9 D6 D3\n" * 13).encode(), 1), (23, 4))
        self.assertEqual(refused(read_pbn, (auction + "1C Pass Pass Pass\n" + '[Play "E"]\n' + "C2 C2 C2 C2\n" * 13).encode(), 1), (12, 0))


class Arguments(unittest.TestCase):
    """A number that C's argument cannot hold is refused as one that is too great, and never wraps; other types are TypeError."""

    BEYOND = (-1, 2**32, 2**32 + 7, 2**64 + 1, -(2**31), 2**80)

    def test_numbers(self):
        trick = cards("D2 H2 S2 C2")
        deal = holders_of(MIXED)
        for beyond in self.BEYOND:
            with self.subTest(beyond):
                self.assertEqual(refused(write_record, beyond, 1, SUITS, [0] * 4, []), (3, 0))
                self.assertEqual(refused(write_record, 1, beyond, SUITS, [0] * 4, []), (3, 1))
                self.assertEqual(refused(write_record, 1, 1, SUITS[:51] + (beyond,), [0] * 4, []), (4, 4))
                self.assertEqual(refused(write_record, 1, 1, SUITS, [0, beyond], []), (5, 1))
                self.assertEqual(refused(write_record, 1, 1, SUITS, [3, 0, 0, 0], trick[:1] + [beyond], 1), (11, 1))
                self.assertEqual(refused(write_record, 1, 1, SUITS, [3, 0, 0, 0], [52, beyond, 0] + trick, 1), (25, 0))
                self.assertEqual(refused(write_record, 1, 1, SUITS, [3, 0, 0, 0], [52, 14, beyond] + trick, 1), (26, 0))
                self.assertEqual(refused(write_record, 1, 1, SUITS, [3, 0, 0, 0], [53, beyond, 0] + trick, 1), (26, 0))
                self.assertEqual(refused(write_record, 1, 1, SUITS, [3, 0, 0, 0], trick, beyond), (15, 15))
                self.assertEqual(refused(write_record, 1, 1, deal, [3, 0, 0, 0], [], beyond), (14, 0))
                self.assertEqual(refused(read_pbn, f'[Board "1"]\n[Deal "N:{MIXED}"]\n[Auction "N"]\nPass\n'.encode(), beyond), (3, 1))
        self.assertEqual(refused(write_record, 1, 1, SUITS[:51] + (256,), [0] * 4, []), (4, 4))
        self.assertEqual(refused(write_record, 1, 1, SUITS, [256, 0, 0, 0], []), (5, 0))

    def test_types(self):
        for wrong in ("0201", 7, 7.0, None, [2, 1], {2: 1}):
            for call in (judge, slip, best_play, lambda record: read_pbn(record, 1)):
                self.assertRaises(TypeError, call, wrong)
        for wrong in (1.0, "1", None, b"1"):
            self.assertRaises(TypeError, write_record, wrong, 1, SUITS, [0] * 4, [])
            self.assertRaises(TypeError, write_record, 1, wrong, SUITS, [0] * 4, [])
            self.assertRaises(TypeError, read_pbn, b"", wrong)
            self.assertRaises(TypeError, write_record, 1, 1, SUITS, [0, wrong], [])
            self.assertRaises(TypeError, dealer, wrong)
        for wrong in (7, "0123", None, {0: 1}, {0, 1}, 1.5, iter([0])):
            self.assertRaises(TypeError, write_record, 1, 1, wrong, [0] * 4, [])
        self.assertRaises(TypeError, write_record, 1, 1, SUITS, [0] * 4, [], 1.0)

    def test_every_kind_of_bytes(self):
        record = sample("slam")
        due = judge(record)
        for given in (bytearray(record), memoryview(record), memoryview(bytearray(record)), memoryview(b"x" + record)[1:]):
            self.assertEqual(judge(given), due)
        backwards = memoryview(bytes(reversed(record)))[::-1]
        self.assertEqual(judge(backwards), due)
        lists = (list, tuple, bytes, bytearray, lambda numbers: memoryview(bytes(numbers)))
        for kind in lists:
            self.assertEqual(write_record(1, 1, kind(SUITS), kind([0] * 4), kind([])), PASSED_OUT)
