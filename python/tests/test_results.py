"""Results and rankings: numbers worked out here from the Laws, what is left out and told, and the same bytes for every order of the records."""
import functools
import itertools
import operator
import random
import struct
import unittest
from fractions import Fraction

from clubscore import schema, write_record
from clubscore.pairs import read_pairs
from clubscore.scoring import results

from .common import MIXED, SUITS, cards, holders_of

DEAL = holders_of(MIXED)
HEAD = "board,table,ns,ew,award_ns,award_ew\n"


def record(board, table, tricks=7, deal=DEAL, level=1):
    """Notrump by the dealer's first bid, one trick lost or won at a time: after the first trick all is claimed, so that declarer's side has so many."""
    dealer = (board - 1) % 4
    leader = (dealer + 1) % 4
    first = [card for card in range(52) if deal[card] == leader][0]
    return write_record(board, table, deal, [2 + 5 * level, 0, 0, 0], [first], tricks)


def named(*some):
    return [(f"r{place}", content) for place, content in enumerate(some)]


def pairs_of(text, head=HEAD):
    return read_pairs("pairs.csv", (head + text).encode())


def told(found):
    return [(entry["kind"], entry["files"], entry["board"], entry["table"], entry["line"], entry["number"], entry["place"]) for entry in found["left_out"]]


def bits(number):
    return None if number is None else struct.pack(">d", number)


class Boards(unittest.TestCase):
    def test_rows(self):
        found = results(named(record(1, 1, 7), record(1, 2, 8), record(1, 3, 6), record(1, 9, 7)))
        board = found["boards"][0]
        self.assertEqual(
            (found["format"], board["board"], board["dealer"], board["vulnerable"], board["refused"]), ("clubscore results 1", 1, "N", "None", None)
        )
        self.assertEqual(board["hands"], dict(zip("NESW", MIXED.split())))
        seen = [
            (row["table"], row["kind"], row["score"], row["ns_matchpoints"], row["ew_matchpoints"], row["ns_percent"], row["ew_percent"])
            for row in board["rows"]
        ]
        self.assertEqual(
            seen,
            [
                (1, "played", 90, 3, 3, 50.0, 50.0),
                (2, "played", 120, 6, 0, 100.0, 0.0),
                (3, "played", -50, 0, 6, 0.0, 100.0),
                (9, "played", 90, 3, 3, 50.0, 50.0),
            ],
        )
        row = board["rows"][1]
        self.assertEqual(
            (row["contract"], row["declarer"], row["lead"], row["tricks"], row["tricks_after"], row["revokes"], row["failures"]),
            ("1NT", "N", "C6", 8, 8, [], []),
        )
        self.assertEqual(row["items"], [{"name": "TRICKS", "points": 40}, {"name": "OVERTRICKS", "points": 30}, {"name": "PARTSCORE", "points": 50}])
        self.assertEqual((row["ns"], row["ew"], found["ranking"], found["left_out"]), (None, None, [], []))
        self.assertIsNone(schema.fault(found, schema.load()))

    def test_percentages_bit_for_bit(self):
        chance = random.Random(12)
        tricks = [chance.randrange(0, 13) for _ in range(29)]
        rows = results(named(*(record(1, table, count) for table, count in enumerate(tricks, 1))))["boards"][0]["rows"]
        for row, count in zip(rows, tricks):
            below, equal = sum(other < count for other in tricks), tricks.count(count) - 1
            ns = 2 * below + equal
            self.assertEqual((row["ns_matchpoints"], bits(row["ns_percent"]), bits(row["ew_percent"])), (ns, bits(100 * ns / 56), bits(100 * (56 - ns) / 56)))

    def test_alone_and_passed_out(self):
        found = results(named(record(1, 1), write_record(2, 5, SUITS, [0] * 4, [])))
        first, second = found["boards"][0]["rows"][0], found["boards"][1]["rows"][0]
        self.assertEqual(
            (first["kind"], first["ns_matchpoints"], first["ew_matchpoints"], first["ns_percent"], first["ew_percent"]), ("alone", 0, 0, None, None)
        )
        keys = ("kind", "contract", "declarer", "lead", "tricks", "tricks_after", "score", "items", "revokes", "failures")
        self.assertEqual([second[key] for key in keys], ["alone", "Pass", None, None, None, None, 0, [], [], []])

    def test_lead_behind_codes(self):
        content = write_record(1, 1, SUITS, [3, 0, 0, 0], [52, 15, 0] + cards("D3 H2 S2 C2"), 12)
        row = results(named(content))["boards"][0]["rows"][0]
        self.assertEqual((row["lead"], row["failures"]), ("D3", [{"trick": 1, "seat": "E", "card": "D3"}]))

    def test_fouled(self):
        found = results(named(record(1, 1), record(1, 2), record(1, 3, deal=SUITS), record(2, 1)))
        board = found["boards"][0]
        self.assertEqual((board["refused"], board["hands"]), ({"number": 28, "place": 0, "words": "a fouled board, results of two deals"}, None))
        self.assertEqual({(row["kind"], row["ns_matchpoints"], row["ns_percent"]) for row in board["rows"]}, {("unscored", None, None)})
        self.assertEqual(told(found), [("board", [], 1, None, None, 28, 0)])

    def test_too_many(self):
        many = [record(1, table) for table in range(1, 130)]
        found = results(named(*many))
        self.assertEqual((found["boards"][0]["refused"]["number"], found["boards"][0]["hands"]["N"]), (19, MIXED.split()[0]))
        fouled = results(named(*many, record(1, 200, deal=SUITS)))
        self.assertEqual(fouled["boards"][0]["refused"]["number"], 28)
        self.assertEqual(fouled["boards"][0]["refused"], results(named(*reversed(many + [record(1, 200, deal=SUITS)])))["boards"][0]["refused"])

    def test_same_and_two(self):
        found = results(
            [
                ("b", record(1, 1)),
                ("a", record(1, 1)),
                ("c", record(1, 2, 7)),
                ("d", record(1, 2, 8)),
                ("e", record(1, 2, 8)),
                ("f", b"\0\1"),
                ("g", record(1, 3)),
            ]
        )
        self.assertEqual(
            told(found),
            [("refused", ["f"], None, None, None, 3, 0), ("same", ["a", "b"], 1, 1, None, None, None), ("two", ["c", "d", "e"], 1, 2, None, None, None)],
        )
        self.assertEqual([row["table"] for row in found["boards"][0]["rows"]], [1, 3])

    def test_nothing(self):
        self.assertEqual(results([]), {"format": "clubscore results 1", "boards": [], "ranking": [], "left_out": []})


class Rankings(unittest.TestCase):
    def test_two_fields(self):
        text = "1,1,A,X,,\n1,2,B,Y,,\n1,3,C,Z,,\n2,1,A,Y,,\n2,2,B,Z,,\n2,3,C,X,,\n"
        found = results(named(record(1, 1, 9), record(1, 2, 8), record(1, 3, 7), record(2, 1, 4), record(2, 2, 4), record(2, 3, 5)), pairs_of(text))
        ns, ew = found["ranking"]
        self.assertEqual((ns["field"], ew["field"]), ("NS", "EW"))
        # Board 1: NS 4, 2, 0 of 4. Board 2, East plays: 4 tricks is 150 to NS, 5 is 100: 3, 3, 0 of 4.
        self.assertEqual(
            [(row["rank"], row["pair"], row["boards"], row["exact"], row["percent"]) for row in ns["rows"]],
            [(1, "A", 2, "175/2", 87.5), (2, "B", 2, "125/2", 62.5), (3, "C", 2, "0/1", 0.0)],
        )
        self.assertEqual([(row["rank"], row["pair"], row["exact"]) for row in ew["rows"]], [(1, "Z", "125/2"), (2, "X", "50/1"), (3, "Y", "75/2")])

    def test_ties_and_one_field(self):
        text = "1,1,A,B,,\n1,2,B,C,,\n1,3,D,A,,\n2,7,Z,Y,,\n"
        found = results(named(record(1, 1, 7), record(1, 2, 7), record(1, 3, 7)), pairs_of(text))
        self.assertEqual([field["field"] for field in found["ranking"]], ["all"])
        rows = [(row["rank"], row["pair"], row["boards"], row["percent"], row["exact"]) for row in found["ranking"][0]["rows"]]
        self.assertEqual(
            rows,
            [
                (1, "A", 2, 50.0, "50/1"),
                (1, "B", 2, 50.0, "50/1"),
                (1, "C", 1, 50.0, "50/1"),
                (1, "D", 1, 50.0, "50/1"),
                (None, "Y", 0, None, None),
                (None, "Z", 0, None, None),
            ],
        )

    def test_shared_ranks(self):
        text = "".join(f"1,{table},N{table},E{table},,\n" for table in range(1, 5))
        found = results(named(record(1, 1, 9), record(1, 2, 8), record(1, 3, 8), record(1, 4, 7)), pairs_of(text))
        self.assertEqual([(row["rank"], row["pair"]) for row in found["ranking"][0]["rows"]], [(1, "N1"), (2, "N2"), (2, "N3"), (4, "N4")])

    def test_exact_where_floats_differ(self):
        """Two pairs with the same three percentages in another order tie, though floats added in that order would not."""
        sums = lambda ranks: functools.reduce(operator.add, (100 * 2 * rank / 12 for rank in ranks))
        first = next(ranks for ranks in itertools.permutations(range(7), 3) if sums(ranks) != sums(ranks[1:] + ranks[:1]))
        text, some = "", []
        for place, board in enumerate((1, 3, 5)):
            ranks = {1: first[place], 2: first[(place + 1) % 3]}
            ranks.update(zip(range(3, 8), (rank for rank in range(7) if rank not in ranks.values())))
            text += "".join(f"{board},{table},N{table},E{table},,\n" for table in ranks)
            some += [record(board, table, 3 + rank) for table, rank in ranks.items()]
        rows = {row["pair"]: row for row in results(named(*some), pairs_of(text))["ranking"][0]["rows"]}
        self.assertEqual((rows["N1"]["rank"], rows["N1"]["exact"]), (rows["N2"]["rank"], rows["N2"]["exact"]))
        mean = sum(Fraction(100 * 2 * rank, 12) for rank in first) / 3
        self.assertEqual(
            (rows["N1"]["exact"], bits(rows["N1"]["percent"])), (f"{mean.numerator}/{mean.denominator}", bits(mean.numerator / mean.denominator))
        )

    def test_awards(self):
        text = "1,1,A,X,,\n1,2,B,Y,,\n1,3,C,Z,60,40\n2,1,A,X,60,60\n2,2,C,Y,,\n3,1,A,X,50,40\n"
        found = results(named(record(1, 1, 8), record(1, 2, 7), record(2, 2)), pairs_of(text))
        rows = found["boards"][0]["rows"]
        self.assertEqual(
            [(row["kind"], row["ns_percent"], row["ew_percent"], row["ns_matchpoints"], row["contract"], row["score"]) for row in rows][2],
            ("awarded", 60.0, 40.0, None, None, None),
        )
        self.assertEqual([(row["kind"]) for row in found["boards"][1]["rows"]], ["awarded", "alone"])
        self.assertEqual((found["boards"][2]["hands"], found["boards"][2]["rows"][0]["ew_percent"]), (None, 40.0))
        ns = {row["pair"]: (row["boards"], row["exact"]) for row in found["ranking"][0]["rows"]}
        self.assertEqual(ns, {"A": (3, "70/1"), "B": (1, "0/1"), "C": (1, "60/1")})
        self.assertEqual(found["left_out"], [])

    def test_award_on_a_fouled_board(self):
        found = results(named(record(1, 1), record(1, 2, deal=SUITS)), pairs_of("1,1,A,X,,\n1,2,B,Y,,\n1,3,C,Z,60,60\n"))
        self.assertEqual([row["kind"] for row in found["boards"][0]["rows"]], ["unscored", "unscored", "awarded"])
        self.assertEqual([(row["rank"], row["pair"], row["boards"]) for row in found["ranking"][0]["rows"]], [(1, "C", 1), (None, "A", 0), (None, "B", 0)])

    def test_what_does_not_fit(self):
        text = "1,1,A,X,60,40\n1,2,B,Y,,\n1,9,C,Z,,\n"
        found = results(
            [("one", record(1, 1)), ("two", record(1, 2)), ("three", record(1, 3)), ("four", record(1, 9)), ("five", record(1, 9, 8))], pairs_of(text)
        )
        due = [
            ("two", ["five", "four"], 1, 9, None, None, None),
            ("no record", [], 1, 9, 4, None, None),
            ("no pair", ["three"], 1, 3, None, None, None),
            ("award", [], 1, 1, 2, None, None),
        ]
        self.assertEqual(told(found), due)
        self.assertEqual(
            [(row["table"], row["ns"], row["kind"]) for row in found["boards"][0]["rows"]], [(1, "A", "played"), (2, "B", "played"), (3, None, "played")]
        )
