"""Hives and keys. What is expected is what docs/RULES.md says."""

import contextlib
import datetime
import gc
import itertools
import pickle
import struct
import threading
import unittest
from pathlib import Path
from unittest import mock

import zugmeled
from zugmeled import (
    EMPTY_SECURITY,
    REG_BINARY,
    REG_DWORD,
    REG_EXPAND_SZ,
    REG_MULTI_SZ,
    REG_QWORD,
    REG_SZ,
    Hive,
    Key,
    Notice,
    _hive,
)
from zugmeled import _library as c

MOMENT = 133_000_000_000_000_000


def tree(key):
    """What there is of a key: time, descriptor, values and subkeys."""
    values = [key.value_at(index) for index in range(key.info.values)]
    return key.time, key.security, values, {child.name: tree(child) for child in key}


class HiveTest(unittest.TestCase):
    def setUp(self):
        self.hive = Hive.new("MACHINE", clock=lambda: MOMENT)
        self.addCleanup(self.hive.close)
        self.root = self.hive.root

    def assertStatus(self, status, call, *arguments, **named):
        with self.assertRaises(zugmeled.Error) as raised:
            call(*arguments, **named)
        self.assertEqual(raised.exception.winerror, status)
        return raised.exception


class LifeTest(HiveTest):
    def test_new(self):
        self.assertEqual(list(self.root), [])
        self.assertEqual(self.root.values(), [])
        self.assertEqual(self.root.security, EMPTY_SECURITY)
        self.assertEqual(self.root.time, MOMENT)
        self.assertIsNone(self.hive.path)

    def test_new_by_a_bad_name(self):
        self.assertStatus(87, Hive.new, "a\\b")
        self.assertStatus(87, Hive.new, "")
        self.assertStatus(87, Hive.new, "R", security=b"")

    def test_image_and_loads(self):
        self.root.create("A\\B")["Name"] = "text"
        image = self.hive.image()
        self.assertEqual(struct.unpack_from("<4sIIQ", image), (b"regf", 1, 1, MOMENT))
        # The root's name stands in its key node, 76 bytes behind the front of its cell.
        self.assertEqual(image[4096 + 32 + 4 + 76 :][:7], b"MACHINE")
        with Hive.loads(image) as again:
            self.assertEqual(tree(again.root), tree(self.root))
            self.assertEqual(struct.unpack_from("<II", again.image(), 4), (2, 2))

    def test_loads_of_bad_bytes(self):
        raised = self.assertStatus(1017, Hive.loads, b"none")
        self.assertEqual(raised.fault, 2)
        raised = self.assertStatus(1017, Hive.loads, b"none" + self.hive.image()[4:])
        self.assertEqual(raised.fault, 3)
        self.assertIn("signature", str(raised))

    def test_close(self):
        key = self.root.create("A")
        self.hive.close()
        self.hive.close()
        self.assertStatus(6, key.values)
        self.assertStatus(6, self.root.open, "A")
        self.assertStatus(6, self.hive.image)
        self.assertStatus(6, lambda: list(self.hive.notices()))
        key.close()

    def test_context_manager(self):
        with Hive.new() as hive:
            root = hive.root
        self.assertStatus(6, root.values)

    def test_entries_and_cut(self):
        self.root.create("A").close()
        self.assertEqual(self.hive.entries(), (3, 3))
        # The root's handle is closed for the cut, and opened again behind it.
        self.assertEqual(self.hive.cut(), 4)
        self.assertEqual(self.hive.entries(), (5, 1))
        self.assertEqual(self.root.subkeys(), ["A"])

    def test_keys_stay_open_over_a_cut(self):
        key = self.root.create("A\\B")
        reader = self.root.open("a", mask=zugmeled.QUERY_VALUE)
        same = self.root.open()
        deleted = self.root.create("Gone")
        self.root.delete("Gone")
        self.root.create("Gone")
        closed = self.root.open("A")
        closed.close()
        self.hive.cut()
        key["Name"] = 1
        self.assertEqual(self.root.open("A\\B")["Name"], 1)
        self.assertEqual(reader.values(), [])
        self.assertStatus(5, reader.set, "Name", 3, b"")
        self.assertEqual(same.subkeys(), ["A", "Gone"])
        self.assertStatus(1018, deleted.values)
        self.assertStatus(6, closed.values)
        self.hive.cut()
        self.assertStatus(1018, deleted.values)
        deleted.close()
        self.assertStatus(6, deleted.values)

    def cut_of(self, calls):
        """Cuts a hive of five keys where the calls of the library go through a function. Answers what the keys are then checked by."""
        hive = Hive.new(clock=lambda: MOMENT)
        self.addCleanup(hive.close)
        root = hive.root
        key = root.create("A\\B")
        key["Name"] = 1
        reader, writer = root.open("a", mask=zugmeled.ENUMERATE_SUB_KEYS), root.open("A")
        closed = root.open("A")
        closed.close()
        deleted = root.create("Gone")
        root.delete("Gone")
        root.create("Gone").close()

        def check():
            # Whatever is used first, no path may lead to another key than before.
            writer.delete_tree("B")
            writer.create("B").close()
            self.assertStatus(1018, key.values)
            self.assertEqual(reader.subkeys(), ["B"])
            self.assertStatus(5, reader.values)
            self.assertStatus(6, closed.values)
            with self.assertRaises(zugmeled.Error) as raised:
                deleted.values()
            self.assertIn(raised.exception.winerror, (6, 1018))
            self.assertEqual(hive.root.subkeys(), ["A", "Gone"])
            # No handle was lost.
            hive.cut()
            self.assertEqual(reader.subkeys(), ["B"])

        with contextlib.ExitStack() as patched:
            for name in ("zug_cause", "zug_close", "zug_hive_cut", "zug_open_root", "zug_open_key"):
                patched.enter_context(mock.patch.object(c.library, name, calls(getattr(c.library, name))))
            try:
                hive.cut()
            except (KeyboardInterrupt, zugmeled.Error):
                return hive, check, False
        return hive, check, True

    def test_a_cut_that_is_interrupted(self):
        """Ctrl-C before each call of the library, and behind each."""
        for is_behind in (False, True):
            for at in range(100):
                count = itertools.count()

                def calls(function):
                    def call(*arguments):
                        is_now = next(count) == at
                        if is_now and not is_behind:
                            raise KeyboardInterrupt
                        status = function(*arguments)
                        if is_now:
                            raise KeyboardInterrupt
                        return status

                    return call

                with self.subTest(at=at, is_behind=is_behind):
                    _, check, is_done = self.cut_of(calls)
                    check()
                if is_done:
                    break
            self.assertTrue(10 < at < 99)

    def test_a_cut_without_memory(self):
        """Each call that opens is refused, once or until the memory is there again."""
        for is_once in (True, False):
            for at in range(100):
                count = itertools.count()

                def calls(function):
                    def call(*arguments):
                        number = next(count)
                        is_refused = number == at if is_once else number >= at
                        return c.NOT_ENOUGH_MEMORY if is_refused else function(*arguments)

                    return call if function in (c.library.zug_open_root, c.library.zug_open_key) else function

                with self.subTest(at=at, is_once=is_once):
                    _, check, is_done = self.cut_of(calls)
                    check()
                if is_done:
                    break
            self.assertEqual(at, 4)

    def test_keys_that_a_cut_left_closed(self):
        open_key = c.library.zug_open_key

        def refuses(*arguments):
            return c.NOT_ENOUGH_MEMORY

        hive, check, is_done = self.cut_of(lambda function: refuses if function is open_key else function)
        self.assertFalse(is_done)
        with mock.patch.object(c.library, "zug_open_key", refuses):
            # Nothing is changed by who is refused, and the hive can still be saved.
            before = hive.image()
            self.assertStatus(8, hive.root.delete_tree, "A")
            self.assertStatus(8, hive.root.subkeys)
            self.assertEqual(hive.image(), before)
        check()

    def test_a_clock_that_fails_in_a_cut(self):
        key = self.root.create("A")
        self.root.open("A").close()
        self.root.open("A")
        for good in range(8):
            moments = iter([MOMENT] * good)
            self.hive.clock = lambda: next(moments)
            try:
                self.hive.cut()
                self.root.open("A").close()
            except StopIteration:
                pass
            self.hive.clock = lambda: MOMENT
            key["Name"] = good
            self.assertEqual(self.root.open("A")["Name"], good)
        self.hive.cut()

    def test_an_opening_that_is_interrupted(self):
        """Ctrl-C right behind the library's call: nobody has the key, so that a cut closes it."""
        for name, call in (("zug_open_key", lambda: self.root.open("A")), ("zug_create_key", lambda: self.root.create("A"))):
            function = getattr(c.library, name)

            def interrupted(*arguments):
                function(*arguments)
                raise KeyboardInterrupt

            self.root.create("A").close()
            with mock.patch.object(c.library, name, interrupted):
                self.assertRaises(KeyboardInterrupt, call)
            self.hive.cut()

    def test_cut_waits_for_notices(self):
        self.root.notify()
        self.assertStatus(170, self.hive.cut)
        self.root["Name"] = 1
        self.assertStatus(170, self.hive.cut)
        self.assertEqual(len(list(self.hive.notices())), 1)
        self.hive.cut()

    def interrupted(self, name, call, is_behind):
        """Makes a call with Ctrl-C right before the library's, or right behind it."""
        function = getattr(c.library, name)

        def interrupts(*arguments):
            if is_behind:
                function(*arguments)
            raise KeyboardInterrupt

        with mock.patch.object(c.library, name, interrupts):
            self.assertRaises(KeyboardInterrupt, call)

    def test_a_watch_that_is_interrupted(self):
        """Nobody was told of it, so that a cut doesn't wait for its notice."""
        for is_behind in (False, True):
            with self.subTest(is_behind=is_behind):
                self.interrupted("zug_notify", self.root.notify, is_behind)
                self.hive.cut()
                # The cut ended the watch, if there was one.
                self.assertEqual([notice.reason for notice in self.hive.notices()], [zugmeled.CLOSED] * is_behind)
                self.hive.cut()

    def test_a_watch_beside_one_that_was_interrupted(self):
        """Its notice is still waited for once the other's was taken."""
        watch = self.root.notify(zugmeled.FILTER_SECURITY)
        self.interrupted("zug_notify", self.root.notify, is_behind=True)
        self.root["Name"] = 1
        self.assertEqual([notice.reason for notice in self.hive.notices()], [zugmeled.MATCHED])
        self.assertStatus(170, self.hive.cut)
        self.root.security = EMPTY_SECURITY
        self.assertEqual([notice.watch for notice in self.hive.notices()], [watch])
        self.hive.cut()

    def test_a_notice_whose_taking_is_interrupted(self):
        """It is taken or it isn't, and a cut waits for it only then."""
        for is_behind in (False, True):
            with self.subTest(is_behind=is_behind):
                self.root.notify()
                self.root["Name"] = 1
                self.interrupted("zug_take_notice", lambda: list(self.hive.notices()), is_behind)
                if not is_behind:
                    self.assertStatus(170, self.hive.cut)
                    self.assertEqual(len(list(self.hive.notices())), 1)
                self.hive.cut()
                self.assertEqual(list(self.hive.notices()), [])

    def test_journal_is_cut_by_itself(self):
        data = bytes(1 << 20)
        key = self.root.create("A")
        for _change in range(100):
            key.set("Name", REG_BINARY, data)
        entries, kept = self.hive.entries()
        self.assertGreater(entries, 100)
        self.assertLess(kept, 20)

    def test_changed(self):
        self.assertFalse(self.hive.changed)
        self.root.open()
        self.root.values()
        self.assertFalse(self.hive.changed)
        self.root.create("A")
        self.assertTrue(self.hive.changed)

    def test_a_change_that_is_interrupted(self):
        """Ctrl-C right behind the library's call: the key was changed, and the hive may not say otherwise."""
        set_value = c.library.zug_set_value

        def interrupted(*arguments):
            set_value(*arguments)
            raise KeyboardInterrupt

        with mock.patch.object(c.library, "zug_set_value", interrupted):
            self.assertRaises(KeyboardInterrupt, self.root.set, "Name", REG_DWORD, bytes(4))
        self.assertEqual(self.root["Name"], 0)
        self.assertTrue(self.hive.changed)

    def test_what_is_refused_changes_nothing(self):
        reader = self.root.open(mask=zugmeled.QUERY_VALUE)
        self.assertStatus(5, reader.set, "Name", REG_DWORD, b"")
        self.assertStatus(2, self.root.delete, "None")
        self.assertStatus(2, self.root.delete_value, "None")
        self.assertStatus(87, self.root.create, "A\\")
        self.root.create("").close()
        self.assertFalse(self.hive.changed)

    def test_what_changes(self):
        self.root.create("A\\B")
        self.root["Name"] = 1
        image = self.hive.image()
        changes = {
            "set": lambda root: root.set("Name", 3, b""),
            "delete value": lambda root: root.delete_value("Name"),
            "delete": lambda root: root.delete("A\\B"),
            "delete tree": lambda root: root.delete_tree("A"),
            "security": lambda root: setattr(root, "security", b"d"),
        }
        for name, change in changes.items():
            with self.subTest(change=name), Hive.loads(image) as hive:
                hive.root.create("A")
                self.assertFalse(hive.changed)
                change(hive.root)
                self.assertTrue(hive.changed)

    def test_clock_of_no_moments(self):
        key = self.root.create("A")
        for moment in (-1, 1 << 64):
            self.hive.clock = lambda: moment
            self.assertRaises(OverflowError, self.root.set, "Name", REG_DWORD, b"")
            self.assertRaises(OverflowError, self.hive.image)
            self.assertRaises(OverflowError, Hive.new, clock=self.hive.clock)
            self.assertRaises(OverflowError, key.close)
        self.hive.clock = lambda: (1 << 64) - 1
        self.root["Name"] = 1
        self.assertEqual(self.root.time, (1 << 64) - 1)
        # Nothing stayed open.
        del key
        self.hive.cut()

    def test_clock(self):
        with Hive.new() as hive:
            year = hive.root.modified.year
            self.assertGreaterEqual(year, 2024)
            hive.clock = lambda: MOMENT
            self.assertEqual(hive.root.create("A").time, MOMENT)

    def test_copy_of(self):
        clock = iter(range(1, 1000))
        self.hive.clock = lambda: next(clock)
        self.root.create("A\\B", security=b"other")["Name"] = "text"
        self.root.create("A\\C\\D")
        key = self.root.open("a")
        key[""] = b"default"
        with Hive.copy_of(key) as copied:
            self.assertEqual(tree(copied.root), tree(key))
        with Hive.copy_of(self.root) as copied:
            self.assertEqual(tree(copied.root), tree(self.root))

    def test_copy_of_deep_keys(self):
        key = self.root
        for _step in range(16):
            key = key.create("\\".join(["n"] * 32))
        with Hive.copy_of(self.root) as copied:
            self.assertEqual(copied.root.open(key.path).path, key.path)

    def test_repr(self):
        self.assertEqual(repr(self.hive), "<Hive>")
        self.assertEqual(repr(self.root.create("A\\B")), "<Key 'A\\\\B'>")


class OtherWriterTest(unittest.TestCase):
    """A hive that hivex wrote: what docs/HIVES.md tells of it."""

    PATH = Path(__file__).resolve().parents[3] / "examples" / "hivex.hive"

    @unittest.skipUnless(PATH.is_file(), "the repository's examples aren't here")
    def test_hive_of_hivex(self):
        with Hive.open(self.PATH, read_only=True) as hive:
            key = hive.root.open("Software\\Vendor")
            self.assertEqual(key.subkeys(), ["Sub key"])
            self.assertEqual(key.open("sub key").values(), [("No zero", "a")])
            expected = {
                "": "the default",
                "Bytes": bytes(range(32)),
                "Expand": "%PATH%",
                "Number": 42,
                "Several": ["a", "b"],
                "Text": 'a "quoted" C:\\path',
            }
            self.assertEqual(key.values(), list(expected.items()))
            self.assertEqual(key.value("Expand")[0], REG_EXPAND_SZ)


class KeyTest(HiveTest):
    def test_create_and_open(self):
        key = self.root.create("Software\\Zug")
        self.assertEqual((key.name, key.path), ("Zug", "Software\\Zug"))
        self.assertEqual(self.root.open("SOFTWARE").open("zug").path, "SOFTWARE\\zug")
        self.assertEqual(key.open().path, "Software\\Zug")
        self.assertEqual(self.root.name, "")
        self.assertIs(key.hive, self.hive)

    def test_open_of_none(self):
        raised = self.assertStatus(2, self.root.open, "None")
        self.assertIsInstance(raised, FileNotFoundError)
        self.assertIsInstance(raised, OSError)

    def test_bad_paths_and_masks(self):
        for path in ("A\\", "\\A", "A\\\\B", "n" * 256, "\u65e5", "a\0b"):
            with self.subTest(path=path):
                self.assertStatus(87, self.root.open, path)
                self.assertStatus(87, self.root.create, path)
        self.assertStatus(87, self.root.open, "", mask=0x100)
        self.assertStatus(1450, self.root.create, "\\".join("n" * 33))

    def test_security(self):
        key = self.root.create("A\\B", security=b"own")
        self.assertEqual(key.security, b"own")
        self.assertEqual(self.root.open("A").security, EMPTY_SECURITY)
        key.security = b"s" * 65535
        self.assertEqual(key.security, b"s" * 65535)
        with self.assertRaises(zugmeled.Error):
            key.security = b""

    def test_rights(self):
        self.root["Name"] = 1
        reader = self.root.open(mask=zugmeled.QUERY_VALUE)
        self.assertEqual(reader["Name"], 1)
        raised = self.assertStatus(5, reader.set, "Name", REG_DWORD, b"")
        self.assertIsInstance(raised, PermissionError)
        self.assertStatus(5, reader.subkeys)
        self.assertStatus(5, lambda: reader.security)
        self.assertStatus(5, reader.notify)
        writer = self.root.open(mask=zugmeled.SET_VALUE)
        self.assertStatus(5, lambda: writer["Name"])
        self.assertStatus(5, writer.values)
        self.assertStatus(5, lambda: writer.info)

    def test_subkeys(self):
        for name in ("b", "A", "c"):
            self.root.create(name)
        self.assertEqual(self.root.subkeys(), ["A", "b", "c"])
        self.assertEqual([child.name for child in self.root], ["A", "b", "c"])
        self.assertTrue(all(isinstance(child, Key) for child in self.root))
        self.assertEqual(self.root.subkey_at(1), ("b", MOMENT))
        self.assertStatus(259, self.root.subkey_at, 3)

    def test_subkeys_deleted_on_the_way(self):
        for name in ("A", "B", "C", "D"):
            self.root.create(name)
        seen = []
        for child in self.root:
            seen.append(child.name)
            self.root.delete(child.name)
            if child.name == "B":
                self.root.delete("C")
        self.assertEqual(seen, ["A", "B", "D"])

    def test_delete(self):
        key = self.root.create("A\\B")
        self.assertStatus(5, self.root.delete, "A")
        self.root.delete("a\\b")
        self.assertStatus(2, self.root.delete, "A\\B")
        self.assertStatus(87, self.root.delete, "")
        self.assertStatus(1018, key.values)
        self.root.create("A\\B")
        self.assertStatus(1018, key.values)

    def test_delete_tree(self):
        self.root.create("A\\B\\C")["Name"] = 1
        self.root.delete_tree("A\\B")
        self.assertEqual(self.root.open("A").subkeys(), [])
        self.root["Name"] = 1
        self.root.delete_tree()
        self.assertEqual((self.root.subkeys(), self.root.values()), ([], []))

    def test_time(self):
        key = self.root.create("A")
        self.assertEqual(key.time, MOMENT)
        self.hive.clock = lambda: MOMENT + 10_000_010
        key["Name"] = 1
        self.assertEqual(key.time, MOMENT + 10_000_010)
        self.assertEqual(self.root.time, MOMENT)
        # 133,000,000,000,000,000 is 2022-06-18 04:26:40 in UTC.
        expected = datetime.datetime(2022, 6, 18, 4, 26, 41, 1, tzinfo=datetime.timezone.utc)
        self.assertEqual(key.modified, expected)

    def test_info(self):
        self.root.create("Sub")
        self.root["Name"] = b"some data"
        self.assertEqual(self.root.info, (1, 3, 1, 4, 9, 20, MOMENT))
        self.assertEqual(self.root.info.values, 1)

    def test_close(self):
        key = self.root.create("A")
        key.close()
        key.close()
        self.assertStatus(6, key.values)
        with self.root.open("A") as key:
            key["Name"] = 1
        self.assertStatus(6, key.values)

    def test_keys_that_go_are_closed(self):
        for _open in range(20_000):
            # A session has 16,384 handles.
            self.root.open()
        gc.collect()
        self.root.create("A")

    def test_root_stays_open(self):
        with self.hive.root as root:
            root["Name"] = 1
        self.assertEqual(self.hive.root["Name"], 1)

    def test_errors_go_through_pickle(self):
        raised = self.assertStatus(2, self.root.open, "None")
        again = pickle.loads(pickle.dumps(raised))
        self.assertIsInstance(again, zugmeled.NotFound)
        self.assertEqual((again.winerror, str(again)), (2, str(raised)))


class ValueTest(HiveTest):
    def test_by_name(self):
        self.root["Text"] = "text"
        self.root["Number"] = 4
        self.root["Large"] = 1 << 40
        self.root["Several"] = ["a", "b"]
        self.root["Bytes"] = b"\0\1"
        self.root[""] = "default"
        self.assertEqual(self.root["TEXT"], "text")
        self.assertEqual(self.root["Number"], 4)
        self.assertEqual(self.root["Large"], 1 << 40)
        self.assertEqual(self.root["Several"], ["a", "b"])
        self.assertEqual(self.root["Bytes"], b"\0\1")
        self.assertEqual(self.root[""], "default")

    def test_types(self):
        for value, kind, data in (
            ("a", REG_SZ, b"a\0\0\0"),
            (4, REG_DWORD, b"\4\0\0\0"),
            (True, REG_DWORD, b"\1\0\0\0"),
            (0xFFFFFFFF, REG_DWORD, b"\xff\xff\xff\xff"),
            (1 << 32, REG_QWORD, b"\0\0\0\0\1\0\0\0"),
            (["a"], REG_MULTI_SZ, b"a\0\0\0\0\0"),
            (("a",), REG_MULTI_SZ, b"a\0\0\0\0\0"),
            (bytearray(b"ab"), REG_BINARY, b"ab"),
            (None, REG_BINARY, b""),
        ):
            with self.subTest(value=value):
                self.root["Name"] = value
                self.assertEqual(self.root.value("Name"), (kind, data))

    def test_values_of_no_type(self):
        for value, expected in ((-1, OverflowError), (1.5, TypeError), ({}, TypeError), ([1], ValueError)):
            with self.subTest(value=value), self.assertRaises(expected):
                self.root["Name"] = value
        self.assertNotIn("Name", self.root)

    def test_set_and_value(self):
        self.root.set("Path", REG_EXPAND_SZ, "%PATH%".encode("utf-16-le"))
        self.assertEqual(self.root["Path"], "%PATH%")
        self.root.set("Odd", 0xFFFFFFFF, bytearray(b"d"))
        self.assertEqual(self.root.value("Odd"), (0xFFFFFFFF, b"d"))
        self.root.set("Empty", 3, b"")
        self.assertEqual(self.root.value("Empty"), (3, b""))
        self.assertIsNone(self.root["Empty"])

    def test_data_that_is_no_bytes(self):
        for call in (
            lambda: self.root.set("Name", REG_DWORD, 4),
            lambda: self.root.set("Name", REG_SZ, "text"),
            lambda: setattr(self.root, "security", 4),
            lambda: self.root.create("A", security=4),
            lambda: Hive.loads(4),
            lambda: Hive.new(security=4),
        ):
            self.assertRaises(TypeError, call)

    def test_numbers_that_are_too_large(self):
        self.root["Name"] = 1
        self.root.create("A")
        for number in (1 << 32, (1 << 32) + 1, -1, 1 << 64):
            for call in (
                lambda: self.root.value_at(number),
                lambda: self.root.subkey_at(number),
                lambda: self.root.set("Name", number, b""),
                lambda: self.root.open("A", mask=number),
                lambda: self.root.create("B", mask=number),
                lambda: self.root.notify(number),
            ):
                self.assertRaises(OverflowError, call)
        self.assertStatus(259, self.root.value_at, 0xFFFFFFFF)
        self.assertEqual(tree(self.root)[2:], ([("Name", REG_DWORD, b"\1\0\0\0")], {"A": tree(self.root.open("A"))}))

    def test_large_data(self):
        data = bytes(range(256)) * 4096
        self.root.set("Large", REG_BINARY, data)
        self.assertEqual(self.root.value("Large"), (REG_BINARY, data))
        self.assertEqual(self.root.value_at(0), ("Large", REG_BINARY, data))
        self.assertStatus(87, self.root.set, "Larger", REG_BINARY, data + b"d")

    def test_long_names(self):
        name = "n" * 16383
        self.root[name] = 1
        self.assertEqual(self.root[name.upper()], 1)
        self.assertEqual(self.root.values(), [(name, 1)])
        self.assertStatus(87, self.root.set, name + "n", 3, b"")
        self.assertStatus(87, self.root.set, "\u65e5", 3, b"")

    def test_what_tells_another_length(self):
        class Longer(bytes):
            def __len__(self):
                return 100

        self.root.set("Name", REG_BINARY, Longer(b"data"))
        self.assertEqual(self.root.value("Name"), (REG_BINARY, b"data"))

    def test_names_past_ascii_are_none(self):
        self.assertNotIn("\u65e5", self.root)
        self.assertEqual(self.root.get("\u65e5", 7), 7)
        self.assertStatus(87, self.root.value, "\u65e5")

    def test_contains(self):
        self.root["Name"] = "n" * 5000
        self.assertIn("NAME", self.root)
        self.assertNotIn("None", self.root)
        self.assertNotIn("", self.root)

    def test_get(self):
        self.root["Name"] = 1
        self.assertEqual(self.root.get("name"), 1)
        self.assertIsNone(self.root.get("None"))
        self.assertEqual(self.root.get("None", 7), 7)

    def test_missing(self):
        self.assertIsInstance(self.assertStatus(2, lambda: self.root["None"]), FileNotFoundError)
        self.assertStatus(2, self.root.value)
        self.assertStatus(2, self.root.delete_value, "None")

    def test_delete(self):
        self.root["Name"] = 1
        self.root[""] = 2
        del self.root["NAME"]
        self.root.delete_value()
        self.assertEqual(self.root.values(), [])
        with self.assertRaises(FileNotFoundError):
            del self.root["Name"]

    def test_values_in_order(self):
        for name in ("b", "a", "c"):
            self.root[name] = name
        self.root["B"] = 5
        self.assertEqual(self.root.values(), [("b", 5), ("a", "a"), ("c", "c")])
        self.assertEqual(self.root.value_at(1), ("a", REG_SZ, b"a\0\0\0"))
        self.assertStatus(259, self.root.value_at, 3)


class NoticeTest(HiveTest):
    def test_notices(self):
        self.assertEqual(list(self.hive.notices()), [])
        below = self.root.create("Below")
        far = self.root.notify(zugmeled.FILTER_LAST_SET, subtree=True)
        near = self.root.notify(zugmeled.FILTER_LAST_SET)
        entry = self.hive.entries()[0]
        below["Name"] = 1
        self.assertEqual(list(self.hive.notices()), [Notice(far, entry, zugmeled.MATCHED)])
        self.root["Name"] = 1
        self.assertEqual(list(self.hive.notices()), [Notice(near, entry + 1, zugmeled.MATCHED)])

    def test_the_key_goes(self):
        key = self.root.create("A")
        watch = key.notify(zugmeled.FILTER_SECURITY)
        self.root.delete("A")
        self.assertEqual([notice[::2] for notice in self.hive.notices()], [(watch, zugmeled.GONE)])
        other = self.root.create("B")
        watch = other.notify()
        other.close()
        self.assertEqual([notice[::2] for notice in self.hive.notices()], [(watch, zugmeled.CLOSED)])

    def test_bad_filter(self):
        self.assertStatus(87, self.root.notify, 0)


class ThreadTest(HiveTest):
    def test_an_image_beside_busy_writers_ends(self):
        made, failed = [], []
        room = _hive.create_string_buffer

        def write(turn):
            self.root["Name"] = turn

        def beside(size):
            """Another thread writes whenever there is room for the image."""
            made.append(threading.Thread(target=write, args=(len(made),), daemon=True))
            made[-1].start()
            made[-1].join(0.2)
            # It would go on for ever.
            failed.append(len(made) > 5)
            if failed[-1]:
                raise AssertionError("the image doesn't end")
            return room(size)

        with mock.patch.object(_hive, "create_string_buffer", beside):
            image = self.hive.image()
        for thread in made:
            thread.join(60)
        self.assertFalse(any(failed))
        Hive.loads(image).close()
        self.assertIn("Name", self.root)

    def test_threads_share_a_hive(self):
        failed = []

        def work(number):
            try:
                for turn in range(300):
                    with self.root.create(f"Thread{number}\\Turn{turn}") as key:
                        key["Turn"] = turn
                        self.hive.image() if turn % 100 == 0 else key.values()
            except BaseException as why:
                failed.append(why)

        threads = [threading.Thread(target=work, args=(number,)) for number in range(4)]
        for thread in threads:
            thread.start()
        for thread in threads:
            thread.join()
        self.assertEqual(failed, [])
        for number in range(4):
            self.assertEqual(self.root.open(f"Thread{number}").info.subkeys, 300)


if __name__ == "__main__":
    unittest.main()
