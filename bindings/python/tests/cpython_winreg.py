"""CPython's own tests of winreg, with the stand-in in the module's place.

`python -m tests.cpython_winreg` runs them alone and tells each that can't pass, with its reason. Where this Python has none it says so, and
ends with status 2.
"""

import importlib
import os
import platform
import sys
import unittest
from unittest import mock

from zugmeled import winreg

# The tests ask for these of the system that they run on: a Windows 10 of 64 bits.
_VERSION = (10, 0, 19045, 2, "")
_MACHINE = "AMD64"
_WINDOWS_FOLDER = "C:\\Windows"

#: Why nothing is tried.
NO_TESTS = "this Python has no module test.test_winreg"

_PAST_ASCII = "a name past ASCII, which the rules refuse"
_LONG_NAME = "a key name of 256 characters: the rules allow 255"
_RUNNING_WINDOWS = "it asks for what a running Windows tells"

#: The tests that can't pass, by their names, with the reason.
CANNOT_PASS = {
    "LocalWinregTests.test_registry_works": f"the second half of it makes a key with {_PAST_ASCII}",
    "LocalWinregTests.test_long_key": _LONG_NAME,
    "LocalWinregTests.test_dynamic_key": _RUNNING_WINDOWS,
}


def tests_of_winreg():
    """CPython's module of tests, over the stand-in. ImportError where this Python has no tests with it."""
    with mock.patch.dict(sys.modules, winreg=winreg):
        with mock.patch.object(sys, "getwindowsversion", lambda: _VERSION, create=True):
            with mock.patch.object(platform, "machine", lambda: _MACHINE):
                sys.modules.pop("test.test_winreg", None)
                module = importlib.import_module("test.test_winreg")
    # One of the values that most tests set has a name past ASCII. All others are set.
    module.test_data[:] = [data for data in module.test_data if data[0].isascii()]
    return module


def _with_roots(kind):
    """Mounts what the tests use before each of a class, and takes it out behind it."""
    before, behind = kind.setUp, kind.tearDown

    def set_up(self):
        winreg.mount(winreg.HKEY_CURRENT_USER)
        winreg.mount(winreg.HKEY_LOCAL_MACHINE, "SOFTWARE")
        before(self)

    def tear_down(self):
        behind(self)
        winreg.unmount(winreg.HKEY_LOCAL_MACHINE, "SOFTWARE")
        winreg.unmount(winreg.HKEY_CURRENT_USER)

    return type(kind.__name__, (kind,), {"setUp": set_up, "tearDown": tear_down, "__module__": kind.__module__})


def suite():
    """All of CPython's tests; those that can't pass are skipped with their reason."""
    tests = unittest.TestSuite()
    for name, kind in _classes():
        for test, reason in CANNOT_PASS.items():
            of, method = test.split(".")
            if of == name and hasattr(kind, method):
                setattr(kind, method, unittest.skip(reason)(getattr(kind, method)))
        tests.addTests(unittest.defaultTestLoader.loadTestsFromTestCase(kind))
    return tests


def tests_that_cannot_pass():
    """Those tests alone, by their names, as far as this version of CPython has them."""
    kinds = dict(_classes())
    tests = {}
    for test in CANNOT_PASS:
        of, method = test.split(".")
        if hasattr(kinds.get(of), method):
            tests[test] = kinds[of](method)
    return tests


def _classes():
    """The classes of CPython's tests, by their names."""
    for name, kind in sorted(vars(tests_of_winreg()).items()):
        if isinstance(kind, type) and issubclass(kind, unittest.TestCase):
            yield name, _with_roots(kind)


def environment():
    """What the tests ask of the environment."""
    return mock.patch.dict(os.environ, windir=_WINDOWS_FOLDER)


def main():
    try:
        tests = suite()
    except ImportError:
        print(f"not tried: {NO_TESTS}")
        return 2
    with environment():
        done = unittest.TextTestRunner(verbosity=2).run(tests)
    return 0 if done.wasSuccessful() else 1


if __name__ == "__main__":
    sys.exit(main())
