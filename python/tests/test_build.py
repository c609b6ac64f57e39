"""The package as pip takes it: the wheel of the backend in the tree, laid out in another folder and used from there."""
import base64
import hashlib
import os
import shutil
import subprocess
import sys
import tempfile
import unittest
import zipfile

from .common import ROOT


class Wheel(unittest.TestCase):
    def test_build(self):
        build = "import sys; sys.path.insert(0, sys.argv[1]); import build_backend; print(build_backend.build_wheel(sys.argv[2]))"
        with tempfile.TemporaryDirectory() as folder:
            made = subprocess.run([sys.executable, "-c", build, os.path.join(ROOT, "python"), folder], check=True, capture_output=True, text=True)
            with zipfile.ZipFile(os.path.join(folder, made.stdout.strip())) as wheel:
                self.listed(wheel)
                wheel.extractall(os.path.join(folder, "site"))
            use = "import clubscore, clubscore.schema; print(clubscore.__file__, clubscore.dealer(7), clubscore.schema.load()['$ref'])"
            environment = dict(os.environ, PYTHONPATH=os.path.join(folder, "site"))
            used = subprocess.run([sys.executable, "-c", use], check=True, capture_output=True, text=True, cwd=folder, env=environment)
            self.assertEqual(used.stdout.split()[1:], ["2", "#/$defs/file"])
            self.assertTrue(used.stdout.startswith(folder))

    def test_missing_library(self):
        """Where a library is not there, its path and what makes it are named; one without a function names that when it is called."""
        with tempfile.TemporaryDirectory() as folder:
            shutil.copytree(
                os.path.join(ROOT, "python", "clubscore"), os.path.join(folder, "clubscore"), ignore=shutil.ignore_patterns("libtally.so", "__pycache__")
            )
            environment = dict(os.environ, PYTHONPATH=folder)
            failed = subprocess.run([sys.executable, "-c", "import clubscore"], capture_output=True, text=True, cwd=folder, env=environment)
            self.assertIn(f"ImportError: clubscore needs {os.path.join(folder, 'clubscore', 'libtally.so')}, which is missing: `make python`", failed.stderr)
            shutil.copy(os.path.join(folder, "clubscore", "libjudge.so"), os.path.join(folder, "clubscore", "libtally.so"))
            failed = subprocess.run(
                [sys.executable, "-c", "import clubscore; clubscore.Tally(7)"], capture_output=True, text=True, cwd=folder, env=environment
            )
            self.assertIn("ImportError: clubscore needs the function tally_fresh", failed.stderr)
            with open(os.path.join(folder, "clubscore", "libtally.so"), "wb") as file:
                file.write(b"no library")
            failed = subprocess.run([sys.executable, "-c", "import clubscore"], capture_output=True, text=True, cwd=folder, env=environment)
            self.assertIn("ImportError: clubscore cannot load", failed.stderr)

    def listed(self, wheel):
        """RECORD names every file with its digest."""
        record = next(name for name in wheel.namelist() if name.endswith("/RECORD"))
        rows = dict(line.split(",", 1) for line in wheel.read(record).decode().splitlines())
        self.assertEqual(sorted(rows), sorted(wheel.namelist()))
        for name in rows:
            if name != record:
                content = wheel.read(name)
                digest = base64.urlsafe_b64encode(hashlib.sha256(content).digest()).rstrip(b"=").decode()
                self.assertEqual(rows[name], f"sha256={digest},{len(content)}")
        for needed in ("clubscore/libjudge.so", "clubscore/libtally.so", "clubscore/page.css", "clubscore/results.schema.json", "clubscore/py.typed"):
            self.assertIn(needed, rows)
