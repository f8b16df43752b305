"""The library's functions have the types that zugmeled.h tells, and its constants the same numbers."""

import os
import re
import unittest
from ctypes import POINTER, c_bool, c_char_p, c_size_t, c_uint8, c_uint32, c_uint64, c_void_p
from pathlib import Path

from zugmeled import _errors
from zugmeled import _library as c

TYPES = {
    "zug_hive *": POINTER(c.HiveWords),
    "zug_info *": POINTER(c.Info),
    "zug_subkey *": POINTER(c.ZugSubkey),
    "zug_value *": POINTER(c.ZugValue),
    "const uint8_t *": c_char_p,
    "uint8_t *": POINTER(c_uint8),
    "uint32_t *": POINTER(c_uint32),
    "uint64_t *": POINTER(c_uint64),
    "uint8_t ": c_uint8,
    "uint32_t ": c_uint32,
    "uint64_t ": c_uint64,
    "size_t ": c_size_t,
    "bool ": c_bool,
}


def header():
    """The header's text without comments: it stands beside the library, or in the repository. None where it isn't here."""
    top = Path(__file__).resolve().parents[3]
    for folder in (Path(os.environ.get("ZUGMELED", "")).parent, top / "dist", top / "include"):
        path = folder / "zugmeled.h"
        if path.is_file():
            return re.sub(r"/\*.*?\*/", "", path.read_text(encoding="utf-8"), flags=re.DOTALL)
    return None


def type_of(parameter):
    words, name = re.fullmatch(r"(.*[ *])(\w+)", parameter.strip()).groups()
    # A room is written by its length, and may be of any bytes.
    return c_void_p if words == "uint8_t *" and name.endswith("room") else TYPES[words]


@unittest.skipUnless(header(), "zugmeled.h isn't here")
class HeaderTest(unittest.TestCase):
    def test_functions(self):
        told = re.findall(r"\b(uint32_t|void) (zug_\w+)\(([^)]*)\);", header())
        self.assertEqual(len(told), 29)
        for result, name, parameters in told:
            with self.subTest(function=name):
                function = getattr(c.library, name)
                self.assertEqual(function.restype, c_uint32 if result == "uint32_t" else None)
                expected = [] if parameters == "void" else [type_of(it) for it in parameters.split(",")]
                self.assertEqual(list(function.argtypes), expected)

    def test_constants(self):
        told = re.findall(r"#define ZUG_(\w+) (0x[0-9A-F]+|\d+)u?\s", header())
        self.assertGreater(len(told), 70)
        for name, number in told:
            with self.subTest(constant=name):
                self.assertEqual(getattr(c, name), int(number, 0))

    def test_words(self):
        told = re.findall(r"#define ZUG_\w+ (\d+)u\s", header().split("#define ZUG_QUERY_VALUE")[0])
        statuses = {int(number) for number in told} - {c.SUCCESS}
        self.assertEqual(len(statuses), 13)
        self.assertLessEqual(statuses, set(_errors._WORDS))

    def test_info(self):
        self.check_fields("zug_info", c.Info)

    def test_rows(self):
        self.check_fields("zug_subkey", c.ZugSubkey)
        self.check_fields("zug_value", c.ZugValue)

    def check_fields(self, name, structure):
        fields = re.search(rf"typedef struct {name} \{{(.*?)\}}", header(), re.DOTALL)[1]
        told = [(field, TYPES[kind + " "]) for kind, field in re.findall(r"(uint\d+_t) (\w+);", fields)]
        self.assertEqual(told, structure._fields_)


if __name__ == "__main__":
    unittest.main()
