"""PAIRS.csv, the schema of results.json, and the commands `results` and `page` with their files."""
import contextlib
import io
import json
import os
import random
import tempfile
import unittest
from unittest import mock

from clubscore import schema
from clubscore.__main__ import main
from clubscore.files import NotRead
from clubscore.pairs import read_pairs
from clubscore.scoring import results

from .common import SUITS
from .test_results import DEAL, HEAD, named, pairs_of, record, told


class PairsFiles(unittest.TestCase):
    def test_rows_that_cannot_be_used(self):
        lines = [
            "1,1,A,B",
            "1,2,A,B,,,",
            "0,1,A,B,,",
            "128,1,A,B,,",
            "x,1,A,B,,",
            "1,0,A,B,,",
            "1,512,A,B,,",
            "1,3,,B,,",
            "1,3,A, ,,",
            "1,4,A,A,,",
            "1,5,A,B,60,",
            "1,5,A,B,,40",
            "1,6,A,B,70,30",
            "1,7,A,B,60%,40",
            "2,1,A,B,,",
            "2,1,C,D,,",
            "3,1,A,B,60,50",
            "-1,1,A,B,,",
            "4294967297,1,A,B,,",
        ]
        found = pairs_of("".join(line + "\n" for line in lines))
        self.assertEqual([fault.line for fault in found.faults], [2, 3, 4, 5, 6, 7, 8, 9, 10, 11, 12, 13, 14, 15, 16, 17, 19, 20])
        self.assertEqual(list(found.seatings), [(3, 1)])
        self.assertEqual(told(results([], found))[0], ("pairs", [], None, None, 2, None, None))

    def test_files(self):
        four = "board,table,ns,ew\n"
        for content in (
            HEAD + "7,3,A,B,,\n",
            four + "7,3,A,B\n",
            "\ufeff" + four + "7,3,A,B",
            four + "\n\n07,3,A,B\n\n",
            (four + "7,3,A,B\n").replace("\n", "\r\n"),
        ):
            found = read_pairs("x", content.encode())
            self.assertEqual(([(place, seating.ns, seating.ew) for place, seating in found.seatings.items()], found.faults), ([((7, 3), "A", "B")], []))
        names = read_pairs("x", (four + '7,3," a ,""b""\nc",<b>\n').encode()).seatings[7, 3]
        self.assertEqual((names.ns, names.ew, names.line), (' a ,"b"\nc', "<b>", 2))
        self.assertEqual(read_pairs("x", (four + '7,3,"A\nA",B\n7,4,C,C\n').encode()).faults[0].line, 4)

    def test_not_read(self):
        for content in (
            b"",
            b"\n",
            b"7,3,A,B\n",
            b"board,table,ns,ew,award_ns\n",
            b"Board,Table,NS,EW\n",
            b"board;table;ns;ew\n",
            b"\xff\xfe",
            HEAD.encode() + b"7,3,\xff,B,,\n",
        ):
            self.assertRaises(NotRead, read_pairs, "x", content)


class Schema(unittest.TestCase):
    def setUp(self):
        text = "1,1,A,X,,\n1,2,B,Y,,\n1,3,C,Z,60,40\n1,4,C,C,,\n"
        self.found = results(named(record(1, 1, 8), record(1, 2, 7), b"\0"), pairs_of(text))
        self.whole = schema.load()

    def faulty(self, change):
        found = json.loads(json.dumps(self.found))
        change(found)
        return schema.fault(found, self.whole)

    def test_whole(self):
        self.assertIsNone(schema.fault(self.found, self.whole))

    def test_every_key(self):
        """Another key, or one that is missing, in every object."""

        def objects(value, at=()):
            if isinstance(value, dict):
                yield at
            for key, one in value.items() if isinstance(value, dict) else enumerate(value) if isinstance(value, list) else ():
                yield from objects(one, at + (key,))

        def reach(found, at):
            for key in at:
                found = found[key]
            return found

        places = list(objects(self.found))
        self.assertGreater(len(places), 15)
        for at in places:
            self.assertIsNotNone(self.faulty(lambda found: reach(found, at).update(other=1)), at)
            for key in list(reach(self.found, at)):
                self.assertIsNotNone(self.faulty(lambda found: reach(found, at).pop(key)), (at, key))
                self.assertIsNotNone(self.faulty(lambda found: reach(found, at).update({key: True})), (at, key))

    def test_values(self):
        changes = [
            lambda f: f.update(format="clubscore results 2"),
            lambda f: f["boards"][0].update(board=0),
            lambda f: f["boards"][0].update(board=128),
            lambda f: f["boards"][0].update(board=1.5),
            lambda f: f["boards"][0].update(dealer="n"),
            lambda f: f["boards"][0]["hands"].update(N="AKQ"),
            lambda f: f["boards"][0]["rows"][0].update(contract="8C"),
            lambda f: f["boards"][0]["rows"][0].update(contract="1C\n"),
            lambda f: f["boards"][0]["rows"][0].update(kind="other"),
            lambda f: f["boards"][0]["rows"][0].update(ns_percent="60"),
            lambda f: f["boards"][0]["rows"][0].update(ns_percent=100.5),
            lambda f: f["ranking"][0]["rows"][0].update(exact="1/0"),
            lambda f: f["boards"][0].update(rows=[]),
            lambda f: f.update(boards={}),
        ]
        for place, change in enumerate(changes):
            self.assertIsNotNone(self.faulty(change), place)

    def test_unknown_keyword(self):
        self.assertRaises(AttributeError, schema.fault, 1, {"oneOf": []})


class Command(unittest.TestCase):
    def setUp(self):
        folder = tempfile.TemporaryDirectory()
        self.addCleanup(folder.cleanup)
        self.folder = folder.name

    def put(self, name, content):
        path = os.path.join(self.folder, name)
        with open(path, "wb") as file:
            file.write(content)
        return path

    def run_(self, *words):
        out, err = io.StringIO(), io.StringIO()
        with contextlib.redirect_stdout(out), contextlib.redirect_stderr(err):
            status = main(list(words))
        return status, out.getvalue(), err.getvalue()

    def test_exit(self):
        good, bad, out = self.put("good", record(1, 1)), self.put("bad", b"\0\1"), os.path.join(self.folder, "out.json")
        self.assertEqual(self.run_("results", good, "-o", out), (0, "", ""))
        self.assertEqual(self.run_("results", good, bad, "-o", out), (1, "", f"clubscore: {bad}: refused: board not 1 to 127\n"))
        with open(out, "rb") as file:
            before = file.read()
        missing = os.path.join(self.folder, "missing")
        self.assertEqual(self.run_("results", good, missing, "-o", out), (2, "", f"clubscore: {missing}: No such file or directory\n"))
        for pairs in (missing, self.put("p.csv", b"x\n"), self.put("q.csv", b"\xff")):
            self.assertEqual(self.run_("results", good, "--pairs", pairs, "-o", out)[0], 2)
        self.assertEqual(self.run_("results", good, "-o", os.path.join(missing, "x"))[0], 2)
        with open(out, "rb") as file:
            self.assertEqual(file.read(), before)
        self.assertEqual([name for name in os.listdir(self.folder) if name.startswith(".")], [])

    def test_no_input_is_written_over(self):
        good, pairs = self.put("good", record(1, 1)), self.put("pairs.csv", (HEAD + "1,1,A,B,,\n").encode())
        for out in (good, pairs):
            status, _, err = self.run_("results", good, "--pairs", pairs, "-o", out)
            self.assertEqual((status, err), (2, f"clubscore: {out}: is one of the inputs, and is not written over\n"))
        found = os.path.join(self.folder, "out.json")
        self.assertEqual(self.run_("results", good, "-o", found)[0], 0)
        self.assertEqual((self.run_("results", good, "-o", found)[0], self.run_("page", found, "-o", found)[0]), (0, 2))

    def test_hexadecimal(self):
        good, out = record(1, 1), os.path.join(self.folder, "out.json")
        text = "# a comment\n" + " ".join(f"{byte:02x}" for byte in good[:9]) + " # more\n" + good[9:].hex().upper() + "\n"
        self.assertEqual(self.run_("results", self.put("a.hex", text.encode()), "-o", out)[0], 0)
        for wrong in (b"0", b"0 2", b"zz", b"02 0#\n1"):
            status, _, err = self.run_("results", self.put("b.hex", wrong), "-o", out)
            self.assertEqual(status, 2)
            self.assertIn("b.hex: is not hexadecimal, two digits a byte", err)
        self.assertEqual(self.run_("results", self.put("hex", good), "-o", out)[0], 0)
        with mock.patch("sys.stdin", io.TextIOWrapper(io.BytesIO(good))):
            self.assertEqual(self.run_("results", "-", "-o", out)[0], 0)

    def test_any_order(self):
        chance = random.Random(41)
        names = [
            self.put(f"r-{board}-{table}", record(board, table, chance.randrange(13), SUITS if (board, table) == (2, 3) else DEAL))
            for board in range(1, 5)
            for table in range(1, 6)
        ]
        names += [
            self.put("bad-1", b""),
            self.put("bad-2", b"\0\1"),
            self.put("again", record(1, 1, 3)),
            self.put("again-2", record(3, 9, 3)),
            self.put("again-3", record(3, 9, 3)),
        ]
        text = (
            HEAD
            + "".join(f"{board},{table},N{table},E{(table + board) % 5},,\n" for board in range(1, 5) for table in range(1, 6))
            + "9,9,A,B,60,60\n1,1,x,y,,\n"
        )
        pairs, written = self.put("pairs.csv", text.encode()), set()
        for count in range(6):
            out = os.path.join(self.folder, f"out-{count}.json")
            self.assertEqual(self.run_("results", *names, "--pairs", pairs, "-o", out)[0], 1)
            with open(out, "rb") as file:
                written.add(file.read())
            chance.shuffle(names)
        self.assertEqual(len(written), 1)
        found = json.loads(written.pop())
        self.assertIsNone(schema.fault(found, schema.load()))

    def test_page(self):
        out = os.path.join(self.folder, "out.html")
        for content in (b"", b"{}", b"[]", b"nothing", b"\xff", b'{"format": NaN}', b"[" * 100000, b"1" * 5000):
            status, _, err = self.run_("page", self.put("x.json", content), "-o", out)
            self.assertEqual((status, os.path.exists(out)), (2, False), content[:20])
            self.assertTrue(err.startswith("clubscore: ") and err.count("\n") == 1, err)
        self.assertEqual(self.run_("page", os.path.join(self.folder, "none"), "-o", out)[0], 2)


if __name__ == "__main__":
    unittest.main()
