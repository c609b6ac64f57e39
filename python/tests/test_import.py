"""The command `import`: the samples with what is printed of them, and what becomes of files."""
import contextlib
import io
import os
import tempfile
import unittest
from unittest import mock

from clubscore.__main__ import main

from .common import SAMPLES
from .test_pbn import DUE, game_of


def run(*words):
    """What the command prints, on standard output and on standard error, and its exit status."""
    out, err = io.StringIO(), io.StringIO()
    with contextlib.redirect_stdout(out), contextlib.redirect_stderr(err):
        status = main(list(words))
    return out.getvalue(), err.getvalue(), status


class Import(unittest.TestCase):
    def setUp(self):
        folder = tempfile.TemporaryDirectory()
        self.addCleanup(folder.cleanup)
        self.folder = folder.name

    def path(self, *names):
        return os.path.join(self.folder, *names)

    def put(self, text, name="club.pbn"):
        with open(self.path(name), "wb") as file:
            file.write(text.encode("latin-1") if isinstance(text, str) else text)
        return self.path(name)

    def test_samples(self):
        for name in ("evening", "by-hand", "irregular"):
            with open(os.path.join(SAMPLES, "pbn", "files", name + ".printed"), encoding="ascii") as file:
                due = file.read()
            out, err, status = run("import", os.path.join(SAMPLES, "pbn", "files", name + ".pbn"), "-o", self.path(name))
            self.assertEqual((out + f"exit {status}\n", err), (due, ""))
            self.assertEqual(
                sorted(os.listdir(self.path(name))), sorted(set(word.rstrip(";") for word in due.split() if word.rstrip(";").endswith(".record")))
            )

    def test_nothing_is_overwritten(self):
        club = self.put(game_of() + "\n" + game_of(tags='[Table "1"]\n') + "\n" + game_of("2NT AP\n", tags='[Table "1"]\n'))
        name = "board-001-table-001.record"
        due = f"game 1, line 1: {name}\ngame 2, line 20: {name}\ngame 3, line 40: left out: {name} is there already, with other bytes\n"
        for _ in range(2):
            self.assertEqual(run("import", club, "-o", self.path("out")), (due, "", 1))
        with open(self.path("out", name), "rb") as file:
            self.assertEqual(file.read(), DUE)

    def test_exit(self):
        self.assertEqual(run("import", self.put(""), "-o", self.path("out")), ("", "", 0))
        self.assertEqual(
            run("import", self.put("no game at all"), "-o", self.path("out")), ("game 1, line 1: left out: line 1: words outside any game\n", "", 1)
        )
        out, err, status = run("import", self.path("missing"), "-o", self.path("out"))
        self.assertEqual((out, err, status), ("", f"clubscore: {self.path('missing')}: No such file or directory\n", 2))
        out, err, status = run("import", self.put(game_of()), "-o", self.put("", "file"))
        self.assertEqual((out, status), ("", 2))
        self.assertIn("file: File exists", err)
        os.makedirs(self.path("out", "board-001-table-001.record"))
        out, err, status = run("import", self.put(game_of()), "-o", self.path("out"))
        self.assertEqual((out, status), ("game 1, line 1: left out: board-001-table-001.record cannot be written\n", 2))

    def test_table(self):
        self.assertEqual(run("import", self.put(game_of()), "--table", "12", "-o", self.path("out"))[0], "game 1, line 1: board-001-table-012.record\n")
        with self.assertRaises(SystemExit) as caught, contextlib.redirect_stderr(io.StringIO()):
            main(["import", "x", "--table", "x", "-o", "y"])
        self.assertEqual(caught.exception.code, 2)

    def test_printed_as_text(self):
        out = run("import", self.put(game_of(tags='[Contract "\x1b[31m\xc3\xa4\xff"]\n')), "-o", self.path("out"))[0]
        self.assertEqual(out, 'game 1, line 1: board-001-table-001.record; Contract "\\x1b[31mä\ufffd", judged "1NT"\n')

    def test_progress_on_a_terminal(self):
        screen = io.StringIO()
        screen.isatty = lambda: True
        with contextlib.redirect_stdout(io.StringIO()), mock.patch("sys.stderr", screen):
            main(["import", self.put(game_of() + "\n" + game_of()), "-o", self.path("out")])
        self.assertIn("1 of 2 games", screen.getvalue())
