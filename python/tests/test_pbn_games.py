"""Games of the Rust generators, printed in every manner that programs have and read back; the same through judge_read_pbn; and files with bytes changed."""
import glob
import json
import os
import random
import unittest

from clubscore import read_pbn
from clubscore.pbn import Game, games

from .common import ROOT, SAMPLES
from .pbn_printer import MARK, Printer, subset

GAMES = os.environ.get("CLUBSCORE_GAMES", os.path.join(ROOT, "build", "work", "games"))
SEPARATORS = ("\n", "\n\n", "  \t\n", "\n{a comment between games}\n\n", "\n% escaped\n\n", "\n; a comment\n\n")


def made():
    if not os.path.exists(GAMES):
        raise AssertionError(f"{GAMES} is missing: `make python-test` makes it")
    with open(GAMES, encoding="ascii") as file:
        return [json.loads(line) for line in file]


class Printed(unittest.TestCase):
    def test_read_back(self):
        chance, seen = random.Random(114), {"claim": 0, "mark": 0, "out": 0, "whole": 0, "passed": 0, "differences": 0, "unfinished trick": 0}
        every = made()
        for start in range(0, len(every), 40):
            self.file(every[start : start + 40], chance.randrange(2**32), seen)
        self.assertTrue(all(count >= 40 for count in seen.values()), seen)

    def file(self, some, seed, seen):
        printer = Printer(seed)
        text, due, boards = "", [], {}
        for game in some:
            table = printer.some(50)
            said, differences = printer.outcome(game)
            boards[game["board"]] = boards.get(game["board"], 0) + 1
            number = game["table"] if table else boards[game["board"]]
            line = text.count("\n") + 1
            text += printer.game(game, said, table) + printer.chance.choice(SEPARATORS)
            due.append((line, game["board"], number, tuple(differences), game))
        newline = printer.chance.choice(("\n", "\r\n"))
        content = printer.chance.choice((b"", b"\xef\xbb\xbf")) + text.replace("\n", newline).encode("latin-1")
        found = games(content)
        self.assertEqual(len(found), len(some), seed)
        for count, (game, (line, board, table, differences, parts)) in enumerate(zip(found, due), 1):
            record = bytearray(bytes.fromhex(parts["record"]))
            record[0:2] = (board << 9 | table).to_bytes(2, "big")
            self.assertEqual(game, Game(count, line, board, table, bytes(record), differences, None, None), (seed, count))
            seen["claim"] += parts["claim"] is not None
            seen["mark"] += MARK in parts["calls"]
            seen["passed"] += parts["contract"] is None
            seen["whole"] += len(parts["cards"]) == 52
            seen["out"] += parts["tricks"] != parts["after"]
            seen["differences"] += bool(differences)
            seen["unfinished trick"] += len(parts["cards"]) % 4 > 0

    def test_subset(self):
        whole = [game for game in made() if game["claim"] is None and MARK not in game["calls"]]
        self.assertGreater(len(whole), 100)
        for game in whole:
            text = subset(game).encode("ascii")
            self.assertEqual(read_pbn(text, game["table"]).hex(), game["record"])
            self.assertEqual(games(text, game["table"])[0].record.hex(), game["record"])


class AnyBytes(unittest.TestCase):
    """No bytes make it raise, and what is said of a game is one line."""

    def seen(self, content):
        for game in games(content):
            self.assertIsInstance(game, Game)
            self.assertEqual(game.record is None, game.left_out is not None)
            if game.left_out is not None:
                self.assertEqual(len(game.left_out.splitlines()), 1, game.left_out)
                self.assertTrue(game.left_out.isprintable())
            if game.refused is not None:
                self.assertIn(str(game.refused), game.left_out)

    def test_changed(self):
        chance = random.Random(32)
        texts = []
        for path in sorted(glob.glob(os.path.join(SAMPLES, "pbn", "**", "*.pbn"), recursive=True)) + sorted(
            glob.glob(os.path.join(SAMPLES, "pbn", "*.export"))
        ):
            with open(path, "rb") as file:
                texts.append(file.read())
        signs = b'[]{};"\\%#\n\r\t -*+^=$!?ANSXP17\x00\x1a\xff\xc3'
        for _ in range(1500):
            content = bytearray(chance.choice(texts))
            for _ in range(chance.randrange(1, 6)):
                at = chance.randrange(len(content) + 1)
                cut = at + chance.choice((0, 1, 1, 2, 30))
                content[at:cut] = bytes(chance.choice(signs) for _ in range(chance.choice((0, 1, 1, 2))))
            self.seen(bytes(content))
        for text in texts[:6]:
            for length in range(0, len(text), 7):
                self.seen(text[:length])

    def test_noise(self):
        chance = random.Random(33)
        for _ in range(300):
            self.seen(bytes(chance.randrange(256) for _ in range(chance.randrange(400))))
            self.seen(b"".join(chance.choice((b"[", b'"', b"]", b"{", b"}", b"\n", b"\n\n", b"Board", b"Auction", b" 1C", b"#", b"%")) for _ in range(100)))

    def test_long(self):
        for piece in (b"{\n\n", b"[", b'"', b'[A "\\', b"!?", b"1C!?", b"9", b"\r", b"=1=", b"x", b"1C AP "):
            self.seen(b'[Board "1"]\n[Auction "N"]\n' + piece * 60000)
            self.seen(b'[Board "' + piece * 30000 + b'"]\n[Deal "' + piece * 30000 + b'"]\n[Auction "N"]\n')


if __name__ == "__main__":
    unittest.main()
