"""The page in a real browser: its values are those of the JSON bit for bit, nothing is asked for, hostile names stay text, and it can be read by everyone."""
import contextlib
import io
import json
import os
import re
import struct
import subprocess
import sys
import tempfile
import unittest
from fractions import Fraction

from clubscore import write_record
from clubscore.__main__ import main
from clubscore.page import page
from clubscore.pairs import read_pairs
from clubscore.scoring import results

from .browser import Browser
from .common import ROOT, SUITS
from .page_scripts import CHECKS, CONTRAST, MEDDLE, VALUES
from .test_results import HEAD, named, pairs_of, record

FIELDS = (
    "table",
    "ns",
    "ew",
    "contract",
    "declarer",
    "lead",
    "tricks_after",
    "score",
    "items",
    "ns_matchpoints",
    "ew_matchpoints",
    "ns_percent",
    "ew_percent",
)


def bits(key, value):
    """A value as the browser gives it back: of a percentage the 64 bits."""
    return struct.pack(">d", value).hex() if key.endswith("percent") else value


def two_decimals(exact):
    hundredths = int(exact * 100 + Fraction(1, 2))
    return f"{hundredths // 100}.{hundredths % 100:02}"


def signed(number):
    return str(number).replace("-", "−")


class InTheBrowser(unittest.TestCase):
    @classmethod
    def setUpClass(cls):
        cls.browser = Browser()
        cls.addClassCleanup(cls.browser.close)
        folder = tempfile.TemporaryDirectory()
        cls.addClassCleanup(folder.cleanup)
        cls.folder = folder.name
        environment = dict(os.environ, PYTHONPATH=os.path.join(ROOT, "python"))
        club = os.path.join(cls.folder, "club")
        subprocess.run([sys.executable, os.path.join(ROOT, "samples", "club", "make.py"), club], check=True, env=environment)
        records = sorted(os.path.join(club, name) for name in os.listdir(club) if name.endswith(".record"))
        cls.json, cls.html = os.path.join(cls.folder, "results.json"), os.path.join(cls.folder, "results.html")
        with contextlib.redirect_stderr(io.StringIO()):
            assert main(["results", *records, "--pairs", os.path.join(club, "pairs.csv"), "-o", cls.json]) == 1
        assert main(["page", cls.json, "-o", cls.html]) == 0
        with open(cls.json, encoding="ascii") as file:
            cls.results = json.load(file)

    def put(self, name, text):
        path = os.path.join(self.folder, name)
        with open(path, "wb") as file:
            file.write(text.encode("utf-8", "backslashreplace"))
        return path

    def rows(self, selector):
        return self.browser.value(VALUES % json.dumps(selector))

    def same(self, found):
        """Every value of the page that is open is that of the results."""
        due = [
            ({"board": str(board["board"]), "table": str(row["table"])}, {key: bits(key, row[key]) for key in FIELDS if row[key] is not None})
            for board in found["boards"]
            for row in board["rows"]
        ]
        self.assertEqual([list(one) for one in due], self.rows("tr[data-board]"))
        due = [
            (
                {"ranking": field["field"], "pair": json.dumps(row["pair"])},
                {key: bits(key, row[key]) for key in ("rank", "pair", "boards", "percent") if row[key] is not None},
            )
            for field in found["ranking"]
            for row in field["rows"]
        ]
        self.assertEqual([list(one) for one in due], self.rows("tr[data-ranking]"))
        hands = self.browser.value(
            "[...document.querySelectorAll('[data-hand]')].map(one => [+one.dataset.board, one.dataset.hand, JSON.parse(one.dataset.value)])"
        )
        self.assertEqual(
            sorted([board["board"], seat, hand] for board in found["boards"] if board["hands"] for seat, hand in board["hands"].items()), sorted(hands)
        )
        told = self.browser.value("[...document.querySelectorAll('[data-left-out]')].map(one => [+one.dataset.leftOut, one.textContent])")
        self.assertEqual([place for place, _ in told], list(range(len(found["left_out"]))))
        for (_, text), entry in zip(told, found["left_out"]):
            for words in [entry["words"]] + [file.encode("utf-8", "backslashreplace").decode("utf-8") for file in entry["files"]]:
                self.assertIn(words, text)

    def test_values(self):
        self.browser.look(1280)
        self.browser.open(self.html)
        self.same(self.results)

    def test_what_is_seen(self):
        """The texts, not the data: scores, percentages half up from the exact fraction, matchpoints, items."""
        self.browser.look(1280)
        self.browser.open(self.html)
        seen = self.browser.value(
            """[...document.querySelectorAll("tr[data-board]")].map(row => Object.fromEntries([...row.querySelectorAll("[data-field]")].map(
            one => [one.dataset.field, one.dataset.field === "items" ? [...one.querySelectorAll("dd")].map(dd => dd.textContent) : one.textContent])))"""
        )
        rows = [row for board in self.results["boards"] for row in board["rows"]]
        for text, row in zip(seen, rows):
            if row["kind"] == "played":
                total = row["ns_matchpoints"] + row["ew_matchpoints"]
                self.assertEqual(
                    (text["ns_percent"], text["ew_percent"]),
                    tuple(two_decimals(Fraction(100 * row[side], total)) for side in ("ns_matchpoints", "ew_matchpoints")),
                )
                self.assertEqual(
                    (text["ns_matchpoints"], text["score"], text["items"]),
                    (str(row["ns_matchpoints"]), signed(row["score"]), [signed(item["points"]) for item in row["items"]]),
                )
                self.assertEqual(sum(item["points"] for item in row["items"]), row["score"])
            self.assertEqual((text["ns"], text["ew"]), (row["ns"], row["ew"]))
        ranks = self.browser.value("[...document.querySelectorAll('tr[data-ranking]')].map(row => row.querySelector('[data-field=percent]').textContent)")
        self.assertEqual(ranks, [two_decimals(Fraction(row["exact"])) for field in self.results["ranking"] for row in field["rows"]])

    def test_sample_club(self):
        """What the sample's script says that happened."""
        kinds = [(entry["kind"], entry["board"], entry["table"]) for entry in self.results["left_out"]]
        self.assertEqual(kinds, [("refused", None, None), ("board", 17, None), ("no record", 21, 11)])
        rows = {(board["board"], row["table"]): row for board in self.results["boards"] for row in board["rows"]}
        self.assertEqual((len(self.results["boards"]), len(rows)), (24, 24 * 13 - 1))
        self.assertEqual([place for place, row in rows.items() if row["revokes"]], [(5, 4)])
        self.assertEqual([place for place, row in rows.items() if row["failures"]], [(11, 2)])
        self.assertEqual([(place, row["ns_percent"], row["ew_percent"]) for place, row in rows.items() if row["kind"] == "awarded"], [((9, 6), 60.0, 60.0)])
        self.assertEqual({place[0] for place, row in rows.items() if row["kind"] == "unscored"}, {17})
        self.assertEqual([(field["field"], len(field["rows"])) for field in self.results["ranking"]], [("NS", 13), ("EW", 13)])
        self.browser.look(1280)
        self.browser.open(self.html)
        self.assertIn("revoked on trick", self.browser.value("document.querySelector('#board-5').innerText"))
        self.assertIn("did not play a penalty card", self.browser.value("document.querySelector('#board-11').innerText"))
        self.assertIn("a fouled board", self.browser.value("document.querySelector('#board-17').innerText"))

    def test_nothing_is_asked_for(self):
        self.browser.open(self.html)
        self.assertEqual(self.browser.requests(), ["file://" + self.html])
        self.assertEqual([event for event in self.browser.events if event.get("method") in ("Log.entryAdded", "Runtime.exceptionThrown")], [])
        beacon = self.put("beacon.html", "<!DOCTYPE html><title>x</title><img src='http://results.invalid/x.png'>")
        self.browser.open(beacon)
        self.assertEqual(self.browser.requests(), ["file://" + beacon, "http://results.invalid/x.png"])

    def test_what_it_is_made_of(self):
        self.browser.open(self.html)
        self.assertEqual(
            self.browser.value("document.querySelectorAll('script,img,link,iframe,object,embed,form,input,button,svg,video,audio,base').length"), 0
        )
        self.assertEqual(self.browser.value("[...document.querySelectorAll('[src],[srcset],[action],[ping],[background]')].length"), 0)
        self.assertTrue(
            self.browser.value(
                "[...document.querySelectorAll('[href]')].every(one => one.getAttribute('href')[0] === '#' && document.querySelector(one.getAttribute('href')))"
            )
        )
        self.assertEqual(
            self.browser.value("document.querySelectorAll('meta[http-equiv=Content-Security-Policy]')[0].content"),
            "default-src 'none'; style-src 'unsafe-inline'; base-uri 'none'; form-action 'none'",
        )
        with open(self.html, encoding="utf-8") as file:
            self.assertEqual(re.findall(r"url\(|@import|https?:", file.read()), [])
        self.browser.value(MEDDLE)
        self.browser.wait_for("Network.loadingFailed")
        self.assertEqual(
            (self.browser.value("document.title"), self.browser.requests(), self.browser.blocked()),
            ("Results", ["file://" + self.html], ["http://results.invalid/y"]),
        )

    def test_accessibility(self):
        self.browser.look(1280)
        self.browser.open(self.html)
        for name, check in CHECKS.items():
            self.assertTrue(self.browser.value(check), name)

    def test_contrast(self):
        for dark, printed in ((False, False), (True, False), (False, True)):
            self.browser.look(1280, dark=dark, printed=printed)
            self.browser.open(self.html)
            least, count, where = self.browser.value(CONTRAST)
            self.assertGreaterEqual(least, 4.5, where)
            self.assertGreater(count, 1000)
        self.browser.open(self.put("pale.html", "<!DOCTYPE html><title>x</title><body style='background:#fff'><p style='color:#999'>pale"))
        self.assertLess(self.browser.value(CONTRAST)[0], 4.5)

    def test_widths(self):
        """Nothing has to be moved sideways, on a telephone or a screen, and a table stays a table for who listens."""
        for width in (320, 360, 390, 600, 768, 961, 1024, 1279, 1280, 1920):
            self.browser.look(width)
            self.browser.open(self.html)
            self.assertLessEqual(self.browser.value("document.documentElement.scrollWidth"), width)
            self.assertEqual(
                self.browser.value("[...document.querySelectorAll('section.board')].filter(one => one.scrollWidth > one.clientWidth).length"), 0, width
            )
        self.browser.look(390)
        self.browser.open(self.html)
        roles = [node["role"]["value"] for node in self.browser.ask("Accessibility.getFullAXTree")["nodes"] if not node["ignored"]]
        self.assertEqual(roles.count("table"), 26)
        self.assertGreaterEqual(roles.count("row"), 24 * 13)
        self.assertGreaterEqual(roles.count("cell") + roles.count("gridcell"), 24 * 13 * 9)

    def test_folded(self):
        self.browser.look(390)
        self.browser.open(self.html)
        self.assertEqual(self.browser.value("document.querySelectorAll('details[open]').length"), 0)
        self.assertFalse(self.browser.value("document.querySelector('details dl').checkVisibility()"))
        self.browser.value("document.querySelector('summary').click()")
        self.assertTrue(self.browser.value("document.querySelector('details dl').checkVisibility()"))

    def test_hostile_names(self):
        names = [
            "<script>document.title='x'</script>",
            '"><img src=x onerror=alert(1)>',
            "'\" onmouseover='x",
            "\u202eabc\u202c",
            "\u05d0\u05d1 – \u0627",
            "a&amp;b &lt;",
            "\x00\x1b[31m",
            "</bdi></td>",
            "x" * 300,
            "]]>-->",
            "\ud83c\udca1".encode("utf-16", "surrogatepass").decode("utf-16"),
            " " "lead",
        ]
        text = HEAD + "".join(f'1,{table},"{name.replace(chr(34), chr(34) * 2)}",E{table},,\n' for table, name in enumerate(names, 1) if "\x00" not in name)
        records = [record(1, table, 3 + table % 9) for table in range(1, len(names) + 1)]
        found = results(named(*records), read_pairs("x", text.encode()))
        found["boards"][0]["rows"][6]["ns"] = names[6]
        path = self.put("hostile.html", page(found))
        self.browser.look(390)
        self.browser.open(path)
        self.same(found)
        self.assertEqual(
            (self.browser.value("document.title"), self.browser.value("document.scripts.length + document.images.length"), self.browser.requests()),
            ("Results", 0, ["file://" + path]),
        )
        self.assertEqual([event for event in self.browser.events if event.get("method") == "Page.javascriptDialogOpening"], [])
        seen = self.browser.value("[...document.querySelectorAll('td.ns bdi')].map(one => one.textContent)")
        self.assertEqual(seen, [re.sub("[\x00-\x1f]", "\ufffd", name) for name in names])
        self.assertLessEqual(self.browser.value("document.documentElement.scrollWidth"), 390)

    def test_file_names_that_are_no_text(self):
        folder = os.fsencode(self.folder)
        names = [b"\xff\xfe.record", b"<img src=x onerror=alert(1)>", b"\xe2\x80\xae'\"&"]
        for name in names:
            with open(os.path.join(folder, name), "wb") as file:
                file.write(b"\0\1")
        found, out = os.path.join(self.folder, "odd.json"), os.path.join(self.folder, "odd.html")
        with contextlib.redirect_stderr(io.TextIOWrapper(io.BytesIO(), encoding="utf-8", errors="backslashreplace")):
            self.assertEqual(main(["results", *(os.fsdecode(os.path.join(folder, name)) for name in names), "-o", found]), 1)
        self.assertEqual(main(["page", found, "-o", out]), 0)
        with open(found, "rb") as file:
            given = json.loads(file.read())
        self.assertEqual(sorted(os.fsencode(entry["files"][0]) for entry in given["left_out"]), sorted(os.path.join(folder, name) for name in names))
        self.browser.open(out)
        self.same(given)
        self.assertEqual(self.browser.value("document.images.length"), 0)
        shown = self.browser.value("[...document.querySelectorAll('[data-left-out] bdi')].map(one => one.textContent)")
        self.assertEqual(sorted(os.path.basename(name) for name in shown), sorted(["\\udcff\\udcfe.record", "<img src=x onerror=alert(1)>", "\u202e'\"&"]))

    def test_as_large_as_it_gets(self):
        """127 boards of 128 tables."""
        records = [record(1, table, table % 13) for table in range(1, 129)]
        first = results(named(*records), pairs_of("".join(f"1,{table},Pair {table},Pair {table + 200},,\n" for table in range(1, 129))))
        first["boards"] = [dict(first["boards"][0], board=board) for board in range(1, 128)]
        path = self.put("large.html", page(first))
        self.browser.look(1280)
        self.browser.open(path)
        self.assertEqual(self.browser.value("document.querySelectorAll('tr[data-board]').length"), 127 * 128)
        last = self.browser.value(
            "(row => [row.dataset.board, row.dataset.table, row.querySelector('[data-field=ns_percent]').dataset.value])"
            "([...document.querySelectorAll('tr[data-board]')].pop())"
        )
        self.assertEqual(last, ["127", "128", json.dumps(first["boards"][0]["rows"][-1]["ns_percent"])])
        self.browser.value("location.hash = '#board-127'")
        self.assertTrue(self.browser.value("document.querySelector('#title-127').getBoundingClientRect().top < innerHeight"))

    def test_half_up(self):
        """Two of 17 results are lowest and equal: 1 of 32 matchpoints is 3.125 per cent, and 31 are 96.875."""
        found = results(named(*(record(1, table, 1 if table < 3 else 2 + table % 9) for table in range(1, 18))))
        self.browser.open(self.put("half.html", page(found)))
        fields = ("ns_matchpoints", "ew_matchpoints", "ns_percent", "ew_percent")
        seen = [self.browser.value(f"document.querySelector('tr[data-table=\"1\"] [data-field={field}]').textContent") for field in fields]
        self.assertEqual(seen, ["1", "31", "3.13", "96.88"])

    def test_other_shapes(self):
        """No board at all; no pairs; all passed; a result alone; awards alone."""
        cases = [
            results([]),
            results(named(write_record(1, 1, SUITS, [0] * 4, []), write_record(1, 2, SUITS, [0] * 4, []))),
            results(named(record(1, 1))),
            results([], pairs_of("7,1,A,B,60,40\n7,2,A,A,,\n8,1,C,D,,\n")),
        ]
        for place, found in enumerate(cases):
            self.browser.open(self.put(f"other-{place}.html", page(found)))
            self.same(found)
            self.assertEqual(self.browser.value("document.querySelectorAll('h1').length"), 1)


if __name__ == "__main__":
    unittest.main()
