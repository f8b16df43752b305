"""CPython's own tests of winreg, with the stand-in in the module's place: see cpython_winreg.py."""

import unittest

from . import cpython_winreg

# So many pass in 3.9, which has the fewest: 21 tests. Later versions have more.
FEWEST = 14


class Result(unittest.TestResult):
    """Counts those that pass, too."""

    passed = 0

    def addSuccess(self, test):
        super().addSuccess(test)
        self.passed += 1


class CPythonTest(unittest.TestCase):
    def made(self, make):
        try:
            return make()
        except ImportError:
            return self.skipTest(cpython_winreg.NO_TESTS)

    def run_all(self, tests):
        result = Result()
        with cpython_winreg.environment():
            tests.run(result)
        return result

    def test_winreg_of_cpython(self):
        result = self.run_all(self.made(cpython_winreg.suite))
        self.assertEqual([told for _test, told in result.errors + result.failures], [])
        self.assertGreaterEqual(result.passed, FEWEST)

    def test_those_that_cannot_pass(self):
        """They don't pass: the list names no test too many."""
        for name, test in self.made(cpython_winreg.tests_that_cannot_pass).items():
            with self.subTest(test=name):
                self.assertEqual(self.run_all(test).passed, 0)
