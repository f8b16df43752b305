"""The conversions of data, as the documentation of winreg and its source have them."""

import unittest

from zugmeled import (
    REG_BINARY,
    REG_DWORD,
    REG_DWORD_BIG_ENDIAN,
    REG_EXPAND_SZ,
    REG_LINK,
    REG_MULTI_SZ,
    REG_NONE,
    REG_QWORD,
    REG_SZ,
    from_data,
    to_data,
)


def utf16(text):
    return text.encode("utf-16-le")


class ToDataTest(unittest.TestCase):
    def test_numbers(self):
        self.assertEqual(to_data(0x12345678, REG_DWORD), b"\x78\x56\x34\x12")
        self.assertEqual(to_data(0xFFFFFFFF, REG_DWORD), b"\xff" * 4)
        self.assertEqual(to_data(1, REG_QWORD), b"\1" + bytes(7))
        self.assertEqual(to_data(True, REG_DWORD), b"\1\0\0\0")
        self.assertEqual(to_data(None, REG_DWORD), bytes(4))
        self.assertEqual(to_data(None, REG_QWORD), bytes(8))

    def test_numbers_that_do_not_fit(self):
        for value, kind in ((-1, REG_DWORD), (-1, REG_QWORD), (1 << 32, REG_DWORD), (1 << 64, REG_QWORD)):
            with self.subTest(value=value), self.assertRaises(OverflowError):
                to_data(value, kind)

    def test_texts(self):
        self.assertEqual(to_data("ab", REG_SZ), utf16("ab\0"))
        self.assertEqual(to_data("%a%", REG_EXPAND_SZ), utf16("%a%\0"))
        self.assertEqual(to_data(None, REG_SZ), utf16("\0"))
        self.assertEqual(to_data("\u65e5\U0001f600", REG_SZ), utf16("\u65e5\U0001f600\0"))
        self.assertEqual(to_data("\ud800", REG_SZ), b"\x00\xd8\0\0")

    def test_several_texts(self):
        self.assertEqual(to_data(["a", "b"], REG_MULTI_SZ), utf16("a\0b\0\0"))
        self.assertEqual(to_data(["", ""], REG_MULTI_SZ), utf16("\0\0\0"))
        self.assertEqual(to_data([], REG_MULTI_SZ), utf16("\0"))
        self.assertEqual(to_data(None, REG_MULTI_SZ), utf16("\0"))

    def test_bytes(self):
        for kind in (REG_NONE, REG_BINARY, REG_DWORD_BIG_ENDIAN, REG_LINK, 0x12345):
            self.assertEqual(to_data(b"a\0b", kind), b"a\0b")
            self.assertEqual(to_data(bytearray(b"ab"), kind), b"ab")
            self.assertEqual(to_data(None, kind), b"")

    def test_wrong_objects(self):
        for value, kind in (("1", REG_DWORD), (1, REG_SZ), (b"a", REG_EXPAND_SZ), (("a",), REG_MULTI_SZ), ([1], REG_MULTI_SZ)):
            with self.subTest(value=value), self.assertRaisesRegex(ValueError, "Could not convert the data"):
                to_data(value, kind)
        with self.assertRaisesRegex(TypeError, "Objects of type 'str' can not be used as binary registry values"):
            to_data("text", REG_BINARY)


class FromDataTest(unittest.TestCase):
    def test_numbers(self):
        self.assertEqual(from_data(b"\x78\x56\x34\x12", REG_DWORD), 0x12345678)
        self.assertEqual(from_data(b"\xff" * 8, REG_QWORD), 0xFFFFFFFFFFFFFFFF)
        self.assertEqual(from_data(b"", REG_DWORD), 0)
        self.assertEqual(from_data(b"", REG_QWORD), 0)

    def test_texts_end_at_their_zero(self):
        self.assertEqual(from_data(utf16("ab\0"), REG_SZ), "ab")
        self.assertEqual(from_data(utf16("ab"), REG_EXPAND_SZ), "ab")
        self.assertEqual(from_data(utf16("a\0b\0"), REG_SZ), "a")
        self.assertEqual(from_data(b"", REG_SZ), "")
        self.assertEqual(from_data(utf16("a") + b"b", REG_SZ), "a")

    def test_several_texts(self):
        for text, texts in (
            ("a\0b\0\0", ["a", "b"]),
            ("\0\0\0\0\0", ["", "", "", ""]),
            ("\0", []),
            ("", []),
            # Not every program writes both zeros.
            ("a\0b\0", ["a", "b"]),
            ("a\0b", ["a", "b"]),
            ("a", ["a"]),
        ):
            with self.subTest(text=text):
                self.assertEqual(from_data(utf16(text), REG_MULTI_SZ), texts)

    def test_bytes(self):
        for kind in (REG_NONE, REG_BINARY, REG_DWORD_BIG_ENDIAN, REG_LINK, 0x12345):
            self.assertEqual(from_data(b"a\0b", kind), b"a\0b")
            self.assertIsNone(from_data(b"", kind))


if __name__ == "__main__":
    unittest.main()
