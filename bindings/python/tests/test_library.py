"""Every function of the library, with each status that it can answer: what is expected is what zugmeled.h and docs/RULES.md say.

Left out are 8, for which memory would have to be refused, and 1450 for a journal or bins without room.
"""

import os
import struct
import unittest
from ctypes import c_uint8, c_uint32, c_uint64, create_string_buffer, string_at
from pathlib import Path
from unittest import mock

from zugmeled import _library as c

LIBRARY = c.library
DESCRIPTOR = bytes.fromhex("0100048000000000000000000000000000000000")
MOMENT = 133_000_000_000_000_000
NO_HANDLE = 1 << 40


def sized(data):
    """Bytes and their length, as the library takes them."""
    return data, len(data)


def new_hive():
    words = c.HiveWords()
    status = LIBRARY.zug_hive_new(words, *sized(b"ROOT"), *sized(DESCRIPTOR), MOMENT)
    assert status == 0, status
    return words


def image_of(words, sequence=1):
    size, entries = c_uint64(), c_uint64()
    assert LIBRARY.zug_image_size(words, size, entries) == 0
    room = create_string_buffer(size.value)
    assert LIBRARY.zug_image_part(words, MOMENT, sequence, entries.value, 0, room, len(room)) == 0
    return room.raw


def with_checksum(image):
    """An image whose base block has the checksum that is due."""
    checksum = 0
    for (word,) in struct.iter_unpack("<I", image[:508]):
        checksum ^= word
    checksum = {0: 1, 0xFFFFFFFF: 0xFFFFFFFE}.get(checksum, checksum)
    return image[:508] + struct.pack("<I", checksum) + image[512:]


def with_bytes(image, at, data):
    return image[:at] + data + image[at + len(data) :]


class LibraryTest(unittest.TestCase):
    """A hive whose root is open with all rights."""

    def setUp(self):
        self.words = new_hive()
        self.addCleanup(LIBRARY.zug_hive_close, self.words)
        self.root = self.open_root()

    def open_root(self, mask=c.ALL_ACCESS, expected=0):
        opened = c_uint64(77)
        self.assertEqual(LIBRARY.zug_open_root(self.words, 0, MOMENT, mask, opened), expected)
        return opened.value

    def open(self, path, mask=c.ALL_ACCESS, handle=None, expected=0):
        opened = c_uint64(77)
        handle = self.root if handle is None else handle
        status = LIBRARY.zug_open_key(self.words, 0, MOMENT, handle, *sized(path), mask, opened)
        self.assertEqual(status, expected)
        return opened.value

    def create(self, path, mask=c.ALL_ACCESS, handle=None, descriptor=b"", expected=0):
        opened, disposition = c_uint64(77), c_uint32(77)
        handle = self.root if handle is None else handle
        arguments = (handle, *sized(path), mask, *sized(descriptor), opened, disposition)
        self.assertEqual(LIBRARY.zug_create_key(self.words, 0, MOMENT, *arguments), expected)
        return opened.value, disposition.value

    def change(self, name, *arguments, expected=0):
        self.assertEqual(getattr(LIBRARY, name)(self.words, 0, MOMENT, *arguments), expected)

    def set(self, handle, name, data, kind=3, expected=0):
        self.change("zug_set_value", handle, *sized(name), kind, *sized(data), expected=expected)

    def entries(self):
        entries, kept = c_uint64(), c_uint64()
        self.assertEqual(LIBRARY.zug_entries(self.words, entries, kept), 0)
        return entries.value, kept.value

    def deleted(self):
        """A handle whose key was deleted."""
        handle, _disposition = self.create(b"Deleted")
        self.change("zug_delete_key", self.root, *sized(b"Deleted"))
        return handle


class LifeTest(LibraryTest):
    def test_version(self):
        self.assertEqual(LIBRARY.zug_version(), c.VERSION)

    def test_new(self):
        words = c.HiveWords()
        longest = b"n" * 255
        self.assertEqual(LIBRARY.zug_hive_new(words, *sized(longest), *sized(b"d" * 65535), 0), 0)
        LIBRARY.zug_hive_close(words)

    def test_new_of_what_holds_a_hive(self):
        arguments = (*sized(b"OTHER"), *sized(DESCRIPTOR), 0)
        self.assertEqual(LIBRARY.zug_hive_new(self.words, *arguments), c.ALREADY_EXISTS)
        self.assertEqual(self.entries(), (1, 1))

    def test_new_by_bad_names_and_descriptors(self):
        for name in (b"", b"a\\b", b"a\0", b"\x80", b"n" * 256):
            with self.subTest(name=name):
                status = LIBRARY.zug_hive_new(c.HiveWords(), *sized(name), *sized(DESCRIPTOR), 0)
                self.assertEqual(status, c.INVALID_PARAMETER)
        for size in (0, 65536):
            with self.subTest(descriptor=size):
                status = LIBRARY.zug_hive_new(c.HiveWords(), *sized(b"ROOT"), *sized(b"d" * size), 0)
                self.assertEqual(status, c.INVALID_PARAMETER)

    def test_load(self):
        self.create(b"Software")
        loaded, fault = c.HiveWords(), c_uint8(77)
        # Bytes behind the bins aren't read.
        self.assertEqual(LIBRARY.zug_hive_load(loaded, *sized(image_of(self.words) + b"behind"), fault), 0)
        self.addCleanup(LIBRARY.zug_hive_close, loaded)
        self.assertEqual(fault.value, 0)
        opened = c_uint64()
        self.assertEqual(LIBRARY.zug_open_root(loaded, 0, MOMENT, c.ALL_ACCESS, opened), 0)
        self.assertEqual(LIBRARY.zug_open_key(loaded, 0, MOMENT, opened.value, *sized(b"SOFTWARE"), 1, opened), 0)

    def test_load_into_what_holds_a_hive(self):
        fault = c_uint8(77)
        status = LIBRARY.zug_hive_load(self.words, *sized(image_of(self.words)), fault)
        self.assertEqual((status, fault.value), (c.ALREADY_EXISTS, 0))

    def test_load_faults(self):
        image = image_of(self.words)
        # The cell of the root stands at the front of the first bin, behind the base block of 4,096 bytes and a header of 32.
        bin_at, cell_at = 4096, 4096 + 32
        images = {
            2: image[:4095],
            3: with_bytes(image, 0, b"rege"),
            4: with_bytes(image, 24, b"\7"),
            5: with_bytes(image, 508, bytes(4)),
            6: with_checksum(with_bytes(image, 4, b"\7")),
            7: with_bytes(image, bin_at, b"hbon"),
            8: with_bytes(image, cell_at, bytes(4)),
            9: with_bytes(image, cell_at + 4, b"kn"),
        }
        for expected, bad in images.items():
            with self.subTest(fault=expected):
                words, fault = c.HiveWords(), c_uint8(77)
                status = LIBRARY.zug_hive_load(words, *sized(bad), fault)
                self.assertEqual((status, fault.value), (c.NOT_REGISTRY_FILE, expected))
                LIBRARY.zug_hive_close(words)

    def test_load_of_nothing(self):
        fault = c_uint8(77)
        status = LIBRARY.zug_hive_load(c.HiveWords(), b"", 0, fault)
        self.assertEqual((status, fault.value), (c.NOT_REGISTRY_FILE, 2))

    def test_close_of_no_hive(self):
        words = new_hive()
        LIBRARY.zug_hive_close(words)
        LIBRARY.zug_hive_close(words)
        self.assertEqual(LIBRARY.zug_entries(words, c_uint64(), c_uint64()), c.INVALID_HANDLE)

    def test_entries_and_cut(self):
        self.assertEqual(self.entries(), (1, 1))
        cut = c_uint64(77)
        self.assertEqual(LIBRARY.zug_hive_cut(self.words, cut), c.BUSY)
        self.assertEqual(cut.value, 0)
        self.change("zug_close", self.root)
        self.assertEqual(LIBRARY.zug_hive_cut(self.words, cut), 0)
        self.assertEqual(cut.value, 2)
        self.assertEqual(self.entries(), (2, 0))
        self.assertEqual(self.open_root(), 2)

    def test_image_in_parts(self):
        self.set(self.root, b"Bytes", b"d" * 5000)
        image = image_of(self.words, 7)
        self.assertEqual(image[:4], b"regf")
        self.assertEqual(struct.unpack_from("<IIQ", image, 4), (7, 7, MOMENT))
        self.assertEqual((len(image) - 4096) % 4096, 0)
        entries = self.entries()[0]
        parts = []
        for offset in range(0, len(image), 1000):
            room = create_string_buffer(b"\xff" * 1000, 1000)
            status = LIBRARY.zug_image_part(self.words, MOMENT, 7, entries, offset, room, 1000)
            self.assertEqual(status, 0)
            parts.append(room.raw)
        joined = b"".join(parts)
        self.assertEqual(joined[: len(image)], image)
        self.assertEqual(set(joined[len(image) :]), {0xFF})

    def test_image_of_another_state(self):
        room = create_string_buffer(b"\xff" * 10, 10)
        entries = self.entries()[0]
        self.create(b"Software")
        status = LIBRARY.zug_image_part(self.words, MOMENT, 1, entries, 0, room, 10)
        self.assertEqual(status, c.INVALID_PARAMETER)
        self.assertEqual(room.raw, b"\xff" * 10)


class FindingTest(unittest.TestCase):
    def found(self, **named):
        with mock.patch.dict(os.environ, named):
            if not named:
                os.environ.pop("ZUGMELED", None)
            return c._library_path()

    def test_the_variable_comes_first(self):
        self.assertEqual(self.found(ZUGMELED="/some/library.so"), "/some/library.so")

    def test_then_the_repository_and_the_system(self):
        built = str(Path(c.__file__).resolve().parents[3] / "dist" / "libzugmeled.so")
        for is_built, in_system, expected in (
            (True, "libzugmeled.so.1", built),
            (False, "libzugmeled.so.1", "libzugmeled.so.1"),
            (False, None, "libzugmeled.so"),
        ):
            with self.subTest(expected=expected):
                with mock.patch.object(Path, "is_file", return_value=is_built):
                    with mock.patch("ctypes.util.find_library", return_value=in_system):
                        self.assertEqual(self.found(), expected)

    def test_no_library(self):
        with self.assertRaisesRegex(ImportError, "ZUGMELED"):
            c._loaded("/none/libzugmeled.so")

    def test_another_version(self):
        for version, fits in ((c.VERSION, True), (c.VERSION + 101, True), (c.VERSION - 1, False), (c.VERSION + 10000, False)):
            library = mock.Mock()
            library.zug_version.return_value = version
            with self.subTest(version=version), mock.patch("ctypes.PyDLL", return_value=library):
                if fits:
                    self.assertIs(c._loaded("any"), library)
                else:
                    self.assertRaisesRegex(ImportError, str(version), c._loaded, "any")


class NoHiveTest(LibraryTest):
    def calls(self, session):
        """Every function that takes a hive and answers a status, but the two that make one; with what it takes behind the hive."""
        number, small, room = c_uint64(77), c_uint32(77), create_string_buffer(8)
        name, data, where = sized(b"N"), sized(b"data"), (room, 8)
        change, question = (session, MOMENT), (session, 0)
        yield "zug_open_root", (*change, 1, number)
        yield "zug_open_key", (*change, 0, *name, 1, number)
        yield "zug_create_key", (*change, 0, *name, 1, *data, number, small)
        yield "zug_set_value", (*change, 0, *name, 1, *data)
        yield "zug_delete_value", (*change, 0, *name)
        yield "zug_delete_key", (*change, 0, *name)
        yield "zug_delete_tree", (*change, 0, *name)
        yield "zug_set_security", (*change, 0, *data)
        yield "zug_notify", (*change, 0, 1, False, number)
        yield "zug_close", (*change, 0)
        yield "zug_query_value", (*question, *name, *where, small, small)
        yield "zug_enum_key", (*question, 0, *where, small, number)
        yield "zug_enum_value", (*question, 0, *where, small, create_string_buffer(8), 8, small, small)
        yield "zug_query_info", (*question, c.Info())
        yield "zug_get_security", (*question, *where, small)
        yield "zug_take_notice", (session, number, number, small)
        yield "zug_cause", (*change, c.OPEN_ROOT, 0, *name, 1, *data, False)

    def test_no_hive(self):
        for name, arguments in self.calls(64):
            with self.subTest(function=name):
                self.assertEqual(getattr(LIBRARY, name)(c.HiveWords(), *arguments), c.INVALID_HANDLE)
        number, room = c_uint64(77), create_string_buffer(8)
        words = c.HiveWords()
        self.assertEqual(LIBRARY.zug_entries(words, number, c_uint64()), c.INVALID_HANDLE)
        self.assertEqual(LIBRARY.zug_hive_cut(words, number), c.INVALID_HANDLE)
        self.assertEqual(LIBRARY.zug_image_size(words, number, c_uint64()), c.INVALID_HANDLE)
        self.assertEqual(LIBRARY.zug_image_part(words, 0, 1, 0, 0, room, 8), c.INVALID_HANDLE)
        key, value, count = c.ZugSubkey(9), c.ZugValue(9), c_uint32(77)
        self.assertEqual(LIBRARY.zug_key_at(words, b"", 0, key, room, 8), c.INVALID_HANDLE)
        self.assertEqual(key.time, 0)
        self.assertEqual(LIBRARY.zug_subkeys_at(words, b"", 0, 0, key, 1, room, 8, count), c.INVALID_HANDLE)
        self.assertEqual(count.value, 0)
        self.assertEqual(LIBRARY.zug_values_at(words, b"", 0, 0, value, 1, room, 8, count), c.INVALID_HANDLE)
        self.assertEqual(LIBRARY.zug_subkeys_with_values_at(words, b"", 0, 0, key, 1, value, 1, room, 8, count), c.INVALID_HANDLE)
        self.assertEqual(value.name_size, 9)

    def test_no_session(self):
        for session in (64, 255):
            for name, arguments in self.calls(session):
                with self.subTest(function=name, session=session):
                    self.assertEqual(getattr(LIBRARY, name)(self.words, *arguments), c.INVALID_PARAMETER)

    def test_another_session(self):
        # Every call but these two goes by a handle, which is of use to its session alone.
        for name, arguments in self.calls(63):
            if name not in ("zug_open_root", "zug_take_notice", "zug_cause"):
                with self.subTest(function=name):
                    self.assertEqual(getattr(LIBRARY, name)(self.words, *arguments), c.INVALID_HANDLE)


class ChangeTest(LibraryTest):
    def test_open_root(self):
        self.assertEqual(self.open_root(0), 1)
        self.assertEqual(self.open_root(0x100, c.INVALID_PARAMETER), 0)

    def test_open_root_past_the_handles(self):
        for _handle in range(16383):
            self.open_root()
        self.open_root(expected=c.NO_SYSTEM_RESOURCES)
        self.open(b"", expected=c.NO_SYSTEM_RESOURCES)
        self.create(b"", expected=c.NO_SYSTEM_RESOURCES)

    def test_open_key(self):
        self.create(b"A\\B")
        self.open(b"a\\b")
        self.open(b"")
        self.assertEqual(self.open(b"A\\C", expected=c.FILE_NOT_FOUND), 0)
        self.open(b"A", handle=NO_HANDLE, expected=c.INVALID_HANDLE)
        for path in (b"\\A", b"A\\", b"A\\\\B", b"\x80", b"n" * 256, b"\\".join([b"n"] * 513)):
            with self.subTest(path=path):
                self.open(path, expected=c.INVALID_PARAMETER)
        self.open(b"A", mask=0x200, expected=c.INVALID_PARAMETER)
        self.open(b"", handle=self.deleted(), expected=c.KEY_DELETED)

    def test_create_key(self):
        self.assertEqual(self.create(b"A\\B"), (1, 1))
        self.assertEqual(self.create(b"a\\b"), (2, 2))
        self.assertEqual(self.create(b""), (3, 2))
        self.create(b"D", descriptor=b"d" * 65535)
        self.assertEqual(self.create(b"A", handle=NO_HANDLE, expected=c.INVALID_HANDLE), (0, 0))
        self.create(b"A\\", expected=c.INVALID_PARAMETER)
        self.create(b"A", mask=0x200, expected=c.INVALID_PARAMETER)
        self.create(b"E", descriptor=b"d" * 65536, expected=c.INVALID_PARAMETER)
        self.create(b"A", handle=self.deleted(), expected=c.KEY_DELETED)

    def test_create_key_of_too_many_names(self):
        self.create(b"\\".join([b"n"] * 32))
        self.create(b"\\".join([b"m"] * 33), expected=c.NO_SYSTEM_RESOURCES)

    def test_set_value(self):
        self.set(self.root, b"", b"")
        self.set(self.root, b"n" * 16383, b"d" * 1048576, kind=0xFFFFFFFF)
        self.set(self.open_root(c.QUERY_VALUE), b"N", b"", expected=c.ACCESS_DENIED)
        self.set(NO_HANDLE, b"N", b"", expected=c.INVALID_HANDLE)
        self.set(self.root, b"n" * 16384, b"", expected=c.INVALID_PARAMETER)
        self.set(self.root, b"a\0b", b"", expected=c.INVALID_PARAMETER)
        self.set(self.root, b"N", b"d" * 1048577, expected=c.INVALID_PARAMETER)
        self.set(self.deleted(), b"N", b"", expected=c.KEY_DELETED)

    def test_set_value_past_the_values(self):
        for number in range(16384):
            self.set(self.root, b"%d" % number, b"")
        self.set(self.root, b"one more", b"", expected=c.NO_SYSTEM_RESOURCES)
        self.set(self.root, b"0", b"again")

    def delete_value(self, handle, name, expected=0):
        self.change("zug_delete_value", handle, *sized(name), expected=expected)

    def test_delete_value(self):
        self.set(self.root, b"Name", b"data")
        self.delete_value(self.open_root(c.QUERY_VALUE), b"Name", c.ACCESS_DENIED)
        self.delete_value(self.root, b"NAME")
        self.delete_value(self.root, b"Name", c.FILE_NOT_FOUND)
        self.delete_value(NO_HANDLE, b"Name", c.INVALID_HANDLE)
        self.delete_value(self.root, b"\x80", c.INVALID_PARAMETER)
        self.delete_value(self.deleted(), b"Name", c.KEY_DELETED)

    def delete_key(self, handle, path, expected=0):
        self.change("zug_delete_key", handle, *sized(path), expected=expected)

    def test_delete_key(self):
        self.create(b"A\\B")
        self.delete_key(self.root, b"A", c.ACCESS_DENIED)
        self.delete_key(self.root, b"a\\b")
        self.delete_key(self.root, b"A\\B", c.FILE_NOT_FOUND)
        self.delete_key(self.root, b"", c.INVALID_PARAMETER)
        self.delete_key(self.root, b"A\\", c.INVALID_PARAMETER)
        self.delete_key(NO_HANDLE, b"A", c.INVALID_HANDLE)
        self.delete_key(self.deleted(), b"A", c.KEY_DELETED)

    def delete_tree(self, handle, path, expected=0):
        self.change("zug_delete_tree", handle, *sized(path), expected=expected)

    def test_delete_tree(self):
        self.create(b"A\\B")
        self.set(self.root, b"Name", b"data")
        without_set = c.DELETE | c.ENUMERATE_SUB_KEYS | c.QUERY_VALUE
        self.delete_tree(self.open_root(without_set), b"", c.ACCESS_DENIED)
        self.delete_tree(self.open_root(without_set & ~c.DELETE), b"A", c.ACCESS_DENIED)
        self.delete_tree(self.open_root(without_set), b"A")
        self.delete_tree(self.root, b"A", c.FILE_NOT_FOUND)
        self.delete_tree(self.root, b"")
        self.assertEqual(self.info(self.root).values, 0)
        self.delete_tree(NO_HANDLE, b"A", c.INVALID_HANDLE)
        self.delete_tree(self.root, b"A\\", c.INVALID_PARAMETER)
        self.delete_tree(self.deleted(), b"A", c.KEY_DELETED)

    def info(self, handle):
        info = c.Info()
        self.assertEqual(LIBRARY.zug_query_info(self.words, 0, handle, info), 0)
        return info

    def set_security(self, handle, descriptor, expected=0):
        self.change("zug_set_security", handle, *sized(descriptor), expected=expected)

    def test_set_security(self):
        self.set_security(self.root, b"d" * 65535)
        self.set_security(self.root, b"d")
        self.assertEqual(self.info(self.root).security, 1)
        self.set_security(self.open_root(c.WRITE_OWNER), b"d", c.ACCESS_DENIED)
        self.set_security(NO_HANDLE, b"d", c.INVALID_HANDLE)
        self.set_security(self.root, b"", c.INVALID_PARAMETER)
        self.set_security(self.root, b"d" * 65536, c.INVALID_PARAMETER)
        self.set_security(self.deleted(), b"d", c.KEY_DELETED)

    def notify(self, handle, kinds, expected=0):
        watch = c_uint64(77)
        self.change("zug_notify", handle, kinds, False, watch, expected=expected)
        return watch.value

    def test_notify(self):
        self.assertEqual(self.notify(self.root, 0x1000000F), 1)
        self.assertEqual(self.notify(self.open_root(c.QUERY_VALUE), 1, c.ACCESS_DENIED), 0)
        self.notify(NO_HANDLE, 1, c.INVALID_HANDLE)
        for kinds in (0, 0x10, 0x11, 0x10000000):
            with self.subTest(kinds=kinds):
                self.notify(self.root, kinds, c.INVALID_PARAMETER)
        self.notify(self.deleted(), 1, c.KEY_DELETED)

    def test_notify_past_the_watches(self):
        for _watch in range(4096):
            self.notify(self.root, 1)
        self.notify(self.root, 1, c.NO_SYSTEM_RESOURCES)

    def test_close(self):
        self.change("zug_close", self.deleted())
        self.change("zug_close", self.root)
        self.change("zug_close", self.root, expected=c.INVALID_HANDLE)

    def test_refusals_change_nothing(self):
        before = self.entries()
        self.delete_value(self.root, b"None", c.FILE_NOT_FOUND)
        self.open(b"None", expected=c.FILE_NOT_FOUND)
        self.assertEqual(self.entries(), before)


class QuestionTest(LibraryTest):
    def ask(self, name, *arguments, expected=0):
        self.assertEqual(getattr(LIBRARY, name)(self.words, 0, *arguments), expected)

    def query(self, handle, name, size, expected=0):
        room, kind, told = create_string_buffer(b"\xff" * 8, 8), c_uint32(77), c_uint32(77)
        self.ask("zug_query_value", handle, *sized(name), room, size, kind, told, expected=expected)
        return room.raw, kind.value, told.value

    def test_query_value(self):
        untouched = b"\xff" * 8
        self.set(self.root, b"Name", b"data", kind=9)
        self.assertEqual(self.query(self.root, b"name", 8), (b"data\xff\xff\xff\xff", 9, 4))
        self.assertEqual(self.query(self.root, b"name", 0), (untouched, 9, 4))
        self.assertEqual(self.query(self.root, b"name", 3, c.MORE_DATA), (untouched, 9, 4))
        self.assertEqual(self.query(self.root, b"None", 8, c.FILE_NOT_FOUND), (untouched, 0, 0))
        self.query(self.open_root(c.SET_VALUE), b"Name", 8, c.ACCESS_DENIED)
        self.query(NO_HANDLE, b"Name", 8, c.INVALID_HANDLE)
        self.query(self.root, b"\x80", 8, c.INVALID_PARAMETER)
        self.query(self.deleted(), b"Name", 8, c.KEY_DELETED)

    def enum_key(self, handle, index, size, expected=0):
        room, told, time = create_string_buffer(b"\xff" * 8, 8), c_uint32(77), c_uint64(77)
        self.ask("zug_enum_key", handle, index, room, size, told, time, expected=expected)
        return room.raw, told.value, time.value

    def test_enum_key(self):
        untouched = b"\xff" * 8
        self.create(b"Second")
        self.create(b"first")
        self.assertEqual(self.enum_key(self.root, 0, 8), (b"first\xff\xff\xff", 5, MOMENT))
        self.assertEqual(self.enum_key(self.root, 1, 8), (b"Second\xff\xff", 6, MOMENT))
        self.assertEqual(self.enum_key(self.root, 1, 5, c.MORE_DATA), (untouched, 6, 0))
        self.assertEqual(self.enum_key(self.root, 2, 8, c.NO_MORE_ITEMS), (untouched, 0, 0))
        self.enum_key(self.open_root(c.QUERY_VALUE), 0, 8, c.ACCESS_DENIED)
        self.enum_key(NO_HANDLE, 0, 8, c.INVALID_HANDLE)
        self.enum_key(self.deleted(), 0, 8, c.KEY_DELETED)

    def enum_value(self, handle, index, name_size, size, expected=0):
        names, room = create_string_buffer(b"\xff" * 8, 8), create_string_buffer(b"\xff" * 8, 8)
        name_told, kind, told = c_uint32(77), c_uint32(77), c_uint32(77)
        self.ask("zug_enum_value", handle, index, names, name_size, name_told, room, size, kind, told, expected=expected)
        return string_at(names, 4), name_told.value, string_at(room, 4), kind.value, told.value

    def test_enum_value(self):
        untouched = b"\xff" * 4
        self.set(self.root, b"Name", b"data", kind=9)
        self.assertEqual(self.enum_value(self.root, 0, 8, 8), (b"Name", 4, b"data", 9, 4))
        self.assertEqual(self.enum_value(self.root, 0, 8, 0), (b"Name", 4, untouched, 9, 4))
        self.assertEqual(self.enum_value(self.root, 0, 3, 8, c.MORE_DATA), (untouched, 0, untouched, 9, 4))
        self.assertEqual(self.enum_value(self.root, 0, 8, 3, c.MORE_DATA), (untouched, 0, untouched, 9, 4))
        self.assertEqual(self.enum_value(self.root, 1, 8, 8, c.NO_MORE_ITEMS), (untouched, 0, untouched, 0, 0))
        self.enum_value(self.open_root(c.SET_VALUE), 0, 8, 8, c.ACCESS_DENIED)
        self.enum_value(NO_HANDLE, 0, 8, 8, c.INVALID_HANDLE)
        self.enum_value(self.deleted(), 0, 8, 8, c.KEY_DELETED)

    def test_query_info(self):
        self.create(b"Sub")
        self.set(self.root, b"Name", b"some data")
        info = c.Info()
        self.ask("zug_query_info", self.root, info)
        told = [getattr(info, field) for field, _type in c.Info._fields_]
        self.assertEqual(told, [1, 3, 1, 4, 9, 20, MOMENT])
        self.ask("zug_query_info", self.open_root(c.SET_VALUE), info, expected=c.ACCESS_DENIED)
        self.ask("zug_query_info", NO_HANDLE, info, expected=c.INVALID_HANDLE)
        self.ask("zug_query_info", self.deleted(), info, expected=c.KEY_DELETED)

    def get_security(self, handle, size, expected=0):
        room, told = create_string_buffer(b"\xff" * 20, 20), c_uint32(77)
        self.ask("zug_get_security", handle, room, size, told, expected=expected)
        return room.raw, told.value

    def test_get_security(self):
        self.assertEqual(self.get_security(self.root, 20), (DESCRIPTOR, 20))
        self.assertEqual(self.get_security(self.root, 19, c.INSUFFICIENT_BUFFER), (b"\xff" * 20, 20))
        self.get_security(self.open_root(c.QUERY_VALUE), 20, c.ACCESS_DENIED)
        self.get_security(NO_HANDLE, 20, c.INVALID_HANDLE)
        self.get_security(self.deleted(), 20, c.KEY_DELETED)


def fields(row):
    return tuple(getattr(row, name) for name, _type in row._fields_)


class PathTest(LibraryTest):
    """The questions by a path."""

    UNTOUCHED = b"\xff" * 12

    def setUp(self):
        super().setUp()
        self.create(b"Soft\\Zug")
        self.create(b"soft\\abc\\d")
        self.zug = self.open(b"Soft\\Zug")
        self.set(self.zug, b"Name", b"data", kind=9)
        self.set(self.zug, b"", b"more")

    def key_at(self, path, size, expected=0):
        room, row = create_string_buffer(self.UNTOUCHED, 12), c.ZugSubkey(9, 9, 9, 9, 9)
        self.assertEqual(LIBRARY.zug_key_at(self.words, *sized(path), row, room, size), expected)
        return room.raw, fields(row)

    def test_key_at(self):
        self.assertEqual(self.key_at(b"", 12), (b"ROOT" + self.UNTOUCHED[4:], (MOMENT, 4, 1, 0, 8)))
        self.assertEqual(self.key_at(b"SOFT\\zug", 3), (b"Zug" + self.UNTOUCHED[3:], (MOMENT, 3, 0, 2, 0)))
        self.assertEqual(self.key_at(b"Soft", 3, c.MORE_DATA), (self.UNTOUCHED, (MOMENT, 4, 2, 0, 0)))
        self.assertEqual(self.key_at(b"None", 12, c.FILE_NOT_FOUND), (self.UNTOUCHED, (0, 0, 0, 0, 0)))
        self.assertEqual(self.key_at(b"Soft\\", 12, c.INVALID_PARAMETER), (self.UNTOUCHED, (0, 0, 0, 0, 0)))

    def items_at(self, name, row_type, path, index, count, size, expected=0):
        """What is told of items: how many, the rows as tuples, and the room."""
        room, rows, told = create_string_buffer(self.UNTOUCHED, 12), (row_type * 3)(), c_uint32(77)
        status = getattr(LIBRARY, name)(self.words, *sized(path), index, rows, count, room, size, told)
        self.assertEqual(status, expected)
        return told.value, [fields(row) for row in rows], room.raw

    def subkeys_at(self, *arguments, **named):
        return self.items_at("zug_subkeys_at", c.ZugSubkey, *arguments, **named)

    def test_subkeys_at(self):
        abc, zug, none = (MOMENT, 3, 1, 0, 0), (MOMENT, 3, 0, 2, 0), (0, 0, 0, 0, 0)
        self.assertEqual(self.subkeys_at(b"soft", 0, 3, 12), (2, [abc, zug, none], b"abcZug" + self.UNTOUCHED[6:]))
        self.assertEqual(self.subkeys_at(b"soft", 0, 3, 5), (1, [abc, none, none], b"abc" + self.UNTOUCHED[3:]))
        self.assertEqual(self.subkeys_at(b"soft", 0, 1, 12), (1, [abc, none, none], b"abc" + self.UNTOUCHED[3:]))
        self.assertEqual(self.subkeys_at(b"soft", 1, 3, 12), (1, [zug, none, none], b"Zug" + self.UNTOUCHED[3:]))
        self.assertEqual(self.subkeys_at(b"soft", 1, 3, 2, c.MORE_DATA), (0, [zug, none, none], self.UNTOUCHED))
        nothing = (0, [none, none, none], self.UNTOUCHED)
        self.assertEqual(self.subkeys_at(b"soft", 0, 0, 12, c.MORE_DATA), nothing)
        self.assertEqual(self.subkeys_at(b"soft", 2, 3, 12, c.NO_MORE_ITEMS), nothing)
        self.assertEqual(self.subkeys_at(b"soft", 0xFFFFFFFF, 3, 12, c.NO_MORE_ITEMS), nothing)
        self.assertEqual(self.subkeys_at(b"None", 0, 3, 12, c.FILE_NOT_FOUND), nothing)
        self.assertEqual(self.subkeys_at(b"\\", 0, 3, 12, c.INVALID_PARAMETER), nothing)

    def values_at(self, *arguments, **named):
        return self.items_at("zug_values_at", c.ZugValue, *arguments, **named)

    def test_values_at(self):
        named, default, none = (4, 9, 4), (0, 3, 4), (0, 0, 0)
        path = b"SOFT\\ZUG"
        self.assertEqual(self.values_at(path, 0, 3, 12), (2, [named, default, none], b"Namedatamore"))
        self.assertEqual(self.values_at(path, 0, 3, 11), (1, [named, none, none], b"Namedata" + self.UNTOUCHED[8:]))
        self.assertEqual(self.values_at(path, 0, 1, 12), (1, [named, none, none], b"Namedata" + self.UNTOUCHED[8:]))
        self.assertEqual(self.values_at(path, 1, 3, 12), (1, [default, none, none], b"more" + self.UNTOUCHED[4:]))
        self.assertEqual(self.values_at(path, 0, 3, 7, c.MORE_DATA), (0, [named, none, none], self.UNTOUCHED))
        nothing = (0, [none, none, none], self.UNTOUCHED)
        self.assertEqual(self.values_at(path, 0, 0, 12, c.MORE_DATA), nothing)
        self.assertEqual(self.values_at(path, 2, 3, 12, c.NO_MORE_ITEMS), nothing)
        self.assertEqual(self.values_at(b"Soft", 0, 3, 12, c.NO_MORE_ITEMS), nothing)
        self.assertEqual(self.values_at(b"None", 0, 3, 12, c.FILE_NOT_FOUND), nothing)
        self.assertEqual(self.values_at(b"\\", 0, 3, 12, c.INVALID_PARAMETER), nothing)

    def with_values_at(self, path, index, keys, values, size, expected=0):
        """What is told of subkeys with their values, in so many rows and a room of so many bytes."""
        key_rows, value_rows, told = (c.ZugSubkey * keys)(), (c.ZugValue * values)(), c_uint32(77)
        room = create_string_buffer(self.UNTOUCHED * 2, 24)
        arguments = (*sized(path), index, key_rows, keys, value_rows, values, room, size, told)
        self.assertEqual(LIBRARY.zug_subkeys_with_values_at(self.words, *arguments), expected)
        return told.value, [fields(row) for row in key_rows], [fields(row) for row in value_rows], room.raw

    def test_subkeys_with_values_at(self):
        abc, zug, no_key = (MOMENT, 3, 1, 0, 0), (MOMENT, 3, 0, 2, 0), (0, 0, 0, 0, 0)
        named, default, none = (4, 9, 4), (0, 3, 4), (0, 0, 0)
        untouched = self.UNTOUCHED * 2
        both = (2, [abc, zug], [named, default], b"abcZugNamedatamore" + untouched[18:])
        self.assertEqual(self.with_values_at(b"soft", 0, 2, 2, 18), both)
        one = (1, [abc, no_key], [none, none], b"abc" + untouched[3:])
        self.assertEqual(self.with_values_at(b"soft", 0, 2, 2, 17), one)
        self.assertEqual(self.with_values_at(b"soft", 0, 1, 2, 18), (1, [abc], [none, none], b"abc" + untouched[3:]))
        self.assertEqual(self.with_values_at(b"soft", 0, 2, 1, 18), (1, [abc, no_key], [none], b"abc" + untouched[3:]))
        last = (1, [zug, no_key], [named, default], b"ZugNamedatamore" + untouched[15:])
        self.assertEqual(self.with_values_at(b"soft", 1, 2, 2, 18), last)
        nothing = (0, [no_key, no_key], [none, none], untouched)
        self.assertEqual(self.with_values_at(b"soft", 1, 2, 2, 14, c.MORE_DATA), nothing)
        self.assertEqual(self.with_values_at(b"soft", 1, 2, 1, 18, c.MORE_DATA), (0, [no_key, no_key], [none], untouched))
        self.assertEqual(self.with_values_at(b"soft", 0, 0, 2, 18, c.MORE_DATA), (0, [], [none, none], untouched))
        self.assertEqual(self.with_values_at(b"soft", 2, 2, 2, 18, c.NO_MORE_ITEMS), nothing)
        self.assertEqual(self.with_values_at(b"None", 0, 2, 2, 18, c.FILE_NOT_FOUND), nothing)
        self.assertEqual(self.with_values_at(b"\\", 0, 2, 2, 18, c.INVALID_PARAMETER), nothing)

    def test_no_entry(self):
        before = self.entries()
        self.key_at(b"Soft", 12)
        self.subkeys_at(b"Soft", 0, 3, 12)
        self.values_at(b"Soft\\Zug", 0, 3, 12)
        self.with_values_at(b"Soft", 0, 2, 2, 18)
        self.assertEqual(self.entries(), before)


class NoticeTest(LibraryTest):
    def notify(self, handle, kinds, subtree):
        watch = c_uint64()
        self.change("zug_notify", handle, kinds, subtree, watch)
        return watch.value

    def take(self):
        watch, entry, reason = c_uint64(77), c_uint64(77), c_uint32(77)
        status = LIBRARY.zug_take_notice(self.words, 0, watch, entry, reason)
        return status, watch.value, entry.value, reason.value

    def test_take_notice(self):
        below, _disposition = self.create(b"Below")
        near = self.notify(self.root, c.FILTER_LAST_SET, False)
        far = self.notify(self.root, c.FILTER_LAST_SET, True)
        gone = self.notify(below, c.FILTER_LAST_SET, False)
        self.assertEqual(self.take(), (c.NO_MORE_ITEMS, 0, 0, 0))
        # A value below hits what watches the subtree and the key itself, in the order of the watches.
        entry = self.entries()[0]
        self.set(below, b"Name", b"data")
        self.assertEqual(self.take(), (0, far, entry, c.MATCHED))
        self.assertEqual(self.take(), (0, gone, entry, c.MATCHED))
        gone = self.notify(below, c.FILTER_LAST_SET, False)
        self.change("zug_delete_key", self.root, *sized(b"Below"))
        self.assertEqual(self.take(), (0, gone, gone + 1, c.GONE))
        self.change("zug_close", self.root)
        self.assertEqual(self.take(), (0, near, gone + 2, c.CLOSED))
        self.assertEqual(self.take(), (c.NO_MORE_ITEMS, 0, 0, 0))


class NothingGivenTest(LibraryTest):
    """NULL with a length of 0 is empty, wherever bytes or a room are given."""

    def test_lives(self):
        words, fault = c.HiveWords(), c_uint8(77)
        self.assertEqual(LIBRARY.zug_hive_new(words, None, 0, *sized(DESCRIPTOR), 0), c.INVALID_PARAMETER)
        self.assertEqual(LIBRARY.zug_hive_new(words, *sized(b"ROOT"), None, 0, 0), c.INVALID_PARAMETER)
        self.assertEqual(LIBRARY.zug_hive_load(words, None, 0, fault), c.NOT_REGISTRY_FILE)
        self.assertEqual(fault.value, 2)
        self.assertEqual(LIBRARY.zug_image_part(self.words, 0, 1, self.entries()[0], 0, None, 0), 0)

    def test_calls(self):
        opened, disposition, kind, size = c_uint64(), c_uint32(), c_uint32(77), c_uint32(77)
        self.change("zug_open_key", self.root, None, 0, 1, opened)
        self.change("zug_create_key", self.root, None, 0, 1, None, 0, opened, disposition)
        self.assertEqual(disposition.value, 2)
        self.change("zug_set_value", self.root, None, 0, 3, None, 0)
        self.assertEqual(LIBRARY.zug_query_value(self.words, 0, self.root, None, 0, None, 0, kind, size), 0)
        self.assertEqual((kind.value, size.value), (3, 0))
        self.assertEqual(LIBRARY.zug_enum_value(self.words, 0, self.root, 0, None, 0, size, None, 0, kind, size), 0)
        self.assertEqual(LIBRARY.zug_get_security(self.words, 0, self.root, None, 0, size), c.INSUFFICIENT_BUFFER)
        self.change("zug_delete_value", self.root, None, 0)
        self.change("zug_delete_key", self.root, None, 0, expected=c.INVALID_PARAMETER)
        self.change("zug_set_security", self.root, None, 0, expected=c.INVALID_PARAMETER)
        self.change("zug_delete_tree", self.root, None, 0)
        self.create(b"Sub")
        self.assertEqual(LIBRARY.zug_enum_key(self.words, 0, self.root, 0, None, 0, size, opened), c.MORE_DATA)
        self.assertEqual(size.value, 3)
        key = c.ZugSubkey()
        self.assertEqual(LIBRARY.zug_key_at(self.words, None, 0, key, None, 0), c.MORE_DATA)
        self.assertEqual((key.name_size, key.subkeys), (4, 1))
        self.assertEqual(LIBRARY.zug_subkeys_at(self.words, None, 0, 0, None, 0, None, 0, size), c.MORE_DATA)
        self.assertEqual(LIBRARY.zug_values_at(self.words, None, 0, 0, None, 0, None, 0, size), c.NO_MORE_ITEMS)
        self.assertEqual(LIBRARY.zug_subkeys_with_values_at(self.words, None, 0, 0, None, 0, None, 0, None, 0, size), c.MORE_DATA)


class CauseTest(LibraryTest):
    def cause(self, change, handle=0, text=b"", number=0, data=b"", subtree=False):
        arguments = (change, handle, *sized(text), number, *sized(data), subtree)
        before = self.entries()
        status = LIBRARY.zug_cause(self.words, 0, MOMENT, *arguments)
        self.assertEqual(self.entries(), before)
        return status

    def test_accepted(self):
        self.create(b"Sub")
        self.set(self.root, b"Name", b"data")
        accepted = [
            self.cause(c.OPEN_ROOT, number=1),
            self.cause(c.OPEN_KEY, self.root, b"Sub", 1),
            self.cause(c.CREATE_KEY, self.root, b"New", 1, DESCRIPTOR),
            self.cause(c.SET, self.root, b"New", 4, b"data"),
            self.cause(c.DELETE_VALUE, self.root, b"Name"),
            self.cause(c.DELETE_KEY, self.root, b"Sub"),
            self.cause(c.DELETE_TREE, self.root, b"Sub"),
            self.cause(c.SET_SECURITY, self.root, data=b"d"),
            self.cause(c.NOTIFY_CHANGE, self.root, number=1, subtree=True),
            self.cause(c.CLOSE, self.root),
        ]
        self.assertEqual(accepted, [0] * 10)

    def test_refused(self):
        reader = self.open_root(c.QUERY_VALUE)
        self.assertEqual(self.cause(c.OPEN_ROOT, number=0x100), c.INVALID_PARAMETER)
        self.assertEqual(self.cause(c.OPEN_KEY, self.root, b"None", 1), c.FILE_NOT_FOUND)
        self.assertEqual(self.cause(c.CREATE_KEY, self.root, b"\\".join([b"n"] * 33), 1), c.NO_SYSTEM_RESOURCES)
        self.assertEqual(self.cause(c.SET, reader, b"New", 4, b"data"), c.ACCESS_DENIED)
        self.assertEqual(self.cause(c.DELETE_VALUE, self.root, b"None"), c.FILE_NOT_FOUND)
        self.assertEqual(self.cause(c.DELETE_KEY, self.root, b""), c.INVALID_PARAMETER)
        self.assertEqual(self.cause(c.DELETE_TREE, reader, b"None"), c.ACCESS_DENIED)
        self.assertEqual(self.cause(c.SET_SECURITY, self.deleted(), data=b"d"), c.KEY_DELETED)
        self.assertEqual(self.cause(c.NOTIFY_CHANGE, self.root, number=0), c.INVALID_PARAMETER)
        self.assertEqual(self.cause(c.CLOSE, NO_HANDLE), c.INVALID_HANDLE)

    def test_no_change(self):
        for change in (10, 0xFFFFFFFF):
            self.assertEqual(self.cause(change, self.root), c.INVALID_PARAMETER)


if __name__ == "__main__":
    unittest.main()
