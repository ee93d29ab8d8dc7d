"""The examples of the documentation, run."""

import contextlib
import doctest
import importlib
import io
import pkgutil
import textwrap
import unittest
from pathlib import Path

import shaftglimmer

LIBRARY = Path(__file__).resolve().parents[2] / "docs" / "LIBRARY.md"


def load_tests(loader: unittest.TestLoader, tests: unittest.TestSuite, pattern: object) -> unittest.TestSuite:
    tests.addTests(doctest.DocTestSuite(shaftglimmer))
    for module in pkgutil.iter_modules(shaftglimmer.__path__, "shaftglimmer."):
        tests.addTests(doctest.DocTestSuite(importlib.import_module(module.name)))
    return tests


class Library(unittest.TestCase):
    def test_program(self) -> None:
        """The program of docs/LIBRARY.md prints what its comments say."""
        page = LIBRARY.read_text(encoding="utf-8").partition("\n## From Python\n")[2].partition("\n## ")[0]
        start = page.index("    from array import array")
        program = textwrap.dedent(page[start : page.index("\n| to | use |")])
        printed = io.StringIO()
        with contextlib.redirect_stdout(printed):
            exec(program, {})
        lines = printed.getvalue().splitlines()
        self.assertEqual(lines[:4], ["taken 1 0", "again 1 1", "3 1", "5 1"])
        self.assertTrue(lines[4].startswith("refusal 20 (far): No codeword is within reach. "))
        self.assertEqual(lines[5:], [shaftglimmer.Refusal(20).advice])
