"""The examples of the docstrings, run."""
import doctest
import importlib
import os
import pkgutil
import re
import unittest

import clubscore

from .common import ROOT


class Examples(unittest.TestCase):
    def test_docstrings(self):
        attempted = 0
        for module in pkgutil.iter_modules(clubscore.__path__, "clubscore."):
            if not module.name.endswith(("__main__", ".libjudge", ".libtally")):
                outcome = doctest.testmod(importlib.import_module(module.name))
                self.assertEqual(outcome.failed, 0, module.name)
                attempted += outcome.attempted
        self.assertGreater(attempted, 25)

    def test_readme(self):
        with open(os.path.join(ROOT, "README.md"), encoding="utf-8") as file:
            blocks = re.findall(r"```python\n(.*?)```", file.read(), re.S)
        for place, block in enumerate(blocks):
            runner = doctest.DocTestRunner()
            runner.run(doctest.DocTestParser().get_doctest(block, {}, f"README.md, block {place}", "README.md", 0))
            self.assertEqual(runner.failures, 0)
            self.assertGreater(runner.tries, 3)
        self.assertEqual(len(blocks), 1)
