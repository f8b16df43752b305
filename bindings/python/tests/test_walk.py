"""Keys and values by their paths, without a handle: `look`, `subkeys`, `values`, `subkeys_with_values` and `walk` of a hive."""

import threading
import unittest

from tests.test_hive import MOMENT, HiveTest
from zugmeled import REG_BINARY, REG_EXPAND_SZ, Hive, KeyRow
from zugmeled._library import ZugSubkey, ZugValue
from zugmeled._walk import _FIRST_ROOM, _ROWS, _SUBKEY, _VALUE


def calls(hive, path):
    """The five calls by a path, each until its last item."""
    yield lambda: hive.look(path)
    yield lambda: list(hive.subkeys(path))
    yield lambda: list(hive.values(path))
    yield lambda: list(hive.subkeys_with_values(path))
    yield lambda: list(hive.walk(path))


def names(rows):
    return [row.name for row in rows]


def by_handles(key):
    """What a walk tells, by handles."""
    rows = []
    for child in key:
        info = child.info
        rows.append((child.name, info.time, info.subkeys, info.values, 0))
    yield key.path, rows, key.values()
    for child in key:
        yield from by_handles(child)


class LookTest(HiveTest):
    def test_root(self):
        self.assertEqual(self.hive.look(), KeyRow("MACHINE", MOMENT, 0, 0, marks=8))
        self.assertEqual(self.hive.name, "MACHINE")

    def test_key(self):
        self.root.create("Software\\Zug\\Below")
        self.hive.clock = lambda: MOMENT + 1
        self.root.open("Software\\Zug")["Name"] = 1
        self.assertEqual(self.hive.look("Software\\Zug"), ("Zug", MOMENT + 1, 1, 1, 0))
        self.assertEqual(self.hive.look("SOFTWARE\\zug").name, "Zug")

    def test_longest_name(self):
        name = "n" * 255
        self.root.create(name)
        self.assertEqual(self.hive.look(name).name, name)
        with Hive.new(name) as hive:
            self.assertEqual(hive.name, name)

    def test_no_key(self):
        self.root.create("A")
        for path in ("B", "A\\B"):
            for call in calls(self.hive, path):
                self.assertIsInstance(self.assertStatus(2, call), FileNotFoundError)

    def test_no_path(self):
        for path in ("\\", "A\\", "\\A", "A\\\\B", "n" * 256, "\u65e5", "a\0b", "\\".join(["n"] * 513)):
            for call in calls(self.hive, path):
                with self.subTest(path=path):
                    self.assertStatus(87, call)

    def test_closed_hive(self):
        self.root.create("A")
        steps = self.hive.walk()
        next(steps)
        self.hive.close()
        self.assertStatus(6, next, steps)
        for call in calls(self.hive, ""):
            self.assertStatus(6, call)

    def test_rows_have_the_fields_of_the_library(self):
        for fields, told in ((_SUBKEY, ZugSubkey(1, 2, 3, 4, 5)), (_VALUE, ZugValue(1, 2, 3))):
            self.assertEqual(fields.unpack(told), tuple(getattr(told, name) for name, _kind in told._fields_))


class SubkeysTest(HiveTest):
    def test_order(self):
        for name in ("b", "C", "a", "B2"):
            self.root.create(name)
        self.assertEqual(names(self.hive.subkeys()), ["a", "b", "B2", "C"])

    def test_rows(self):
        self.root.create("A\\B")["Name"] = 1
        self.root.create("A\\C\\D")
        expected = [KeyRow("B", MOMENT, 0, 1, 0), KeyRow("C", MOMENT, 1, 0, 0)]
        self.assertEqual(list(self.hive.subkeys("a")), expected)

    def test_empty_key(self):
        self.root.create("A")
        self.assertEqual(list(self.hive.subkeys("A")), [])
        self.assertEqual(list(self.hive.values("A")), [])
        self.assertEqual(list(self.hive.walk("A")), [("A", [], [])])

    def test_more_than_there_are_rows(self):
        for count in (_ROWS - 1, _ROWS, _ROWS + 1, 3 * _ROWS):
            key = self.root.create(f"With {count}")
            expected = [f"Key {number:04}" for number in range(count)]
            for name in reversed(expected):
                key.create(name)
            with self.subTest(count=count):
                self.assertEqual(names(self.hive.subkeys(key.path)), expected)
                self.assertEqual(names(next(self.hive.walk(key.path))[1]), expected)

    def test_names_above_the_room(self):
        # 64 of them have place in the room.
        expected = [f"{number:03}" + "n" * 252 for number in range(200)]
        for name in expected:
            self.root.create(name)
        self.assertEqual(names(self.hive.subkeys()), expected)


class ValuesTest(HiveTest):
    def test_what_they_are(self):
        self.root["Text"] = "text"
        self.root["number"] = 4
        self.root["Large"] = 1 << 40
        self.root["several"] = ["a", "b"]
        self.root["Bytes"] = b"\0\1"
        self.root[""] = "default"
        self.root.set("Path", REG_EXPAND_SZ, "%PATH%".encode("utf-16-le"))
        self.root.set("Odd", 0xFFFFFFFF, b"")
        expected = [("Text", "text"), ("number", 4), ("Large", 1 << 40), ("several", ["a", "b"]), ("Bytes", b"\0\1")]
        expected += [("", "default"), ("Path", "%PATH%"), ("Odd", None)]
        self.assertEqual(list(self.hive.values()), expected)
        self.assertEqual(self.root.values(), expected)

    def test_above_the_first_room(self):
        for name, size in (("Small", 10), ("100 KB", 100_000), ("Small too", 11), ("1 MiB", 1 << 20), ("", 12)):
            self.root.set(name, REG_BINARY, bytes(range(256)) * (size // 256) + b"e" * (size % 256))
        self.root["n" * 16383] = "n" * 500_000
        self.assertEqual(list(self.hive.values()), self.root.values())
        self.assertEqual(next(self.hive.walk())[2], self.root.values())

    def test_at_the_rooms_end(self):
        for size in (-1, 0, 1):
            key = self.root.create(f"With {size}")
            key.set("Name", REG_BINARY, b"d" * (_FIRST_ROOM - 4 + size))
            key["Next"] = 1
            with self.subTest(size=size):
                self.assertEqual(list(self.hive.values(key.path)), key.values())

    def test_more_than_there_are_rows(self):
        for number in range(3 * _ROWS + 1):
            self.root[f"Value {number}"] = number
        self.assertEqual(list(self.hive.values()), self.root.values())


class WalkTest(HiveTest):
    def paths(self, path=""):
        return [path for path, _subkeys, _values in self.hive.walk(path)]

    def test_order(self):
        for path in ("b", "A\\d\\e", "A\\C"):
            self.root.create(path)
        self.assertEqual(self.paths(), ["", "A", "A\\C", "A\\d", "A\\d\\e", "b"])

    def test_steps(self):
        self.root.create("A\\B")["Name"] = "text"
        self.root[""] = 5
        expected = [
            ("", [KeyRow("A", MOMENT, 1, 0, 0)], [("", 5)]),
            ("A", [KeyRow("B", MOMENT, 0, 1, 0)], []),
            ("A\\B", [], [("Name", "text")]),
        ]
        self.assertEqual(list(self.hive.walk()), expected)

    def test_from_below_the_root(self):
        self.root.create("A\\b\\C")
        self.root.create("A\\D")
        # The path that is given stays as it is.
        self.assertEqual(self.paths("a\\B"), ["a\\B", "a\\B\\C"])

    def test_what_is_removed_isnt_gone_to(self):
        for path in ("A\\B", "C\\D", "E\\F"):
            self.root.create(path)
        seen = []
        for path, subkeys, _values in self.hive.walk():
            seen.append(path)
            subkeys[:] = [row for row in subkeys if row.name != "C"]
        self.assertEqual(seen, ["", "A", "A\\B", "E", "E\\F"])

    def test_as_by_handles(self):
        for number in range(400):
            key = self.root.create(f"Key {number % 7}\\Below {number}")
            key["Number"] = number
            if number % 100 == 0:
                key["Large"] = bytes(number * 1000)
        self.assertEqual(list(self.hive.walk()), list(by_handles(self.root)))

    def test_deepest_path(self):
        key = self.root
        for _step in range(16):
            key = key.create("\\".join(["n"] * 32))
        steps = list(self.hive.walk())
        self.assertEqual(len(steps), 513)
        self.assertEqual(steps[-1], (key.path, [], []))

    def test_no_entry_and_no_change(self):
        self.root.create("A\\B")["Name"] = 1
        image = self.hive.image()
        with Hive.loads(image) as hive:
            entries = hive.entries()
            for call in calls(hive, "A"):
                call()
            self.assertEqual(hive.entries(), entries)
            self.assertFalse(hive.changed)


class WithValuesTest(HiveTest):
    """Subkeys with their values are those that `subkeys` and `values` tell."""

    def one_by_one(self, path):
        return [(row, list(self.hive.values(f"{path}\\{row.name}" if path else row.name))) for row in self.hive.subkeys(path)]

    def assertAlike(self, path=""):
        self.assertEqual(list(self.hive.subkeys_with_values(path)), self.one_by_one(path))

    def test_values(self):
        self.root.create("Services\\B")["Start"] = 1
        self.root.create("Services\\A").create("Below")["Text"] = "text"
        self.root.create("Services\\C")[""] = b"\0\1"
        expected = [(KeyRow("A", MOMENT, 1, 0, 0), []), (KeyRow("B", MOMENT, 0, 1, 0), [("Start", 1)]), (KeyRow("C", MOMENT, 0, 1, 0), [("", b"\0\1")])]
        self.assertEqual(list(self.hive.subkeys_with_values("services")), expected)
        self.assertAlike()
        self.assertAlike("Services\\A")
        self.assertEqual(list(self.hive.subkeys_with_values("Services\\B")), [])

    def test_more_than_there_are_rows(self):
        for number in range(_ROWS + 2):
            self.root.create(f"Many\\{number:04}")["Value"] = number
        for number in range(_ROWS + 1):
            self.root.open("Many\\0100")[f"{number}"] = number
        self.assertAlike("Many")

    def test_more_than_the_room_has(self):
        for name in "ABC":
            self.root.create(name)["Large"] = name.encode() * (_FIRST_ROOM - 10)
        self.root.open("B")["Larger"] = b"b" * 3 * _FIRST_ROOM
        self.assertAlike()


class ChangedTest(HiveTest):
    """A hive that is changed between two steps of a loop."""

    def setUp(self):
        super().setUp()
        self.names = [f"Key {number:03}" for number in range(2 * _ROWS)]
        for name in self.names:
            self.root.create(f"Many\\{name}").close()

    def test_subkeys_within_a_batch(self):
        # The rows of a batch are told as they were.
        rows = self.hive.subkeys("Many")
        self.assertEqual(next(rows).name, self.names[0])
        self.root.delete(f"Many\\{self.names[1]}")
        self.assertEqual(next(rows).name, self.names[1])

    def test_subkeys_passed_over(self):
        rows = self.hive.subkeys("Many")
        next(rows)
        self.root.delete(f"Many\\{self.names[0]}")
        # The next batch begins at an index that one key left.
        self.assertEqual(names(rows), self.names[1:_ROWS] + self.names[_ROWS + 1 :])

    def test_subkeys_that_come_twice(self):
        rows = self.hive.subkeys("Many")
        next(rows)
        self.root.create("Many\\A new one")
        self.assertEqual(names(rows), self.names[1:_ROWS] + self.names[_ROWS - 1 :])

    def test_subkeys_of_a_key_that_goes(self):
        rows = self.hive.subkeys("Many")
        told = [next(rows).name for _row in range(_ROWS)]
        self.root.delete_tree("Many")
        self.assertEqual(told, self.names[:_ROWS])
        self.assertStatus(2, next, rows)
        self.assertEqual(list(rows), [])

    def test_all_subkeys_go(self):
        rows = self.hive.subkeys("Many")
        next(rows)
        self.root.open("Many").delete_tree()
        self.assertEqual(names(rows), self.names[1:_ROWS])

    def test_values(self):
        key = self.root.create("Values")
        for number in range(_ROWS + 2):
            key[f"{number}"] = number
        values = self.hive.values("Values")
        self.assertEqual(next(values), ("0", 0))
        key["1"] = "changed"
        key[f"{_ROWS}"] = "changed"
        del key["0"]
        rest = [("1", 1), *((f"{number}", number) for number in range(2, _ROWS)), (f"{_ROWS + 1}", _ROWS + 1)]
        self.assertEqual(list(values), rest)

    def test_values_grow(self):
        key = self.root.create("Values")
        for number in range(_ROWS + 1):
            key[f"{number}"] = number
        values = self.hive.values("Values")
        next(values)
        key[f"{_ROWS}"] = bytes(1 << 20)
        *_others, last = values
        self.assertEqual(last, (f"{_ROWS}", bytes(1 << 20)))

    def test_walk(self):
        for path in ("A\\B", "C\\D", "E\\F"):
            self.root.create(path)
        seen = []
        for path, _subkeys, values in self.hive.walk():
            seen.append((path, values))
            if path == "A":
                self.root.delete_tree("C")
                self.root.create("E\\G")["Name"] = 1
                self.root.create("After")
            if path == "E":
                self.root.delete_tree("Many")
        paths = ["", "A", "A\\B", "E", "E\\F"]
        self.assertEqual(seen, [*((path, []) for path in paths), ("E\\G", [("Name", 1)])])

    def test_a_step_may_cut_the_journal(self):
        steps = 0
        for path, _subkeys, _values in self.hive.walk():
            steps += 1
            if path == "Many":
                self.hive.cut()
        self.assertEqual(steps, len(self.names) + 2)

    def test_threads(self):
        failed = []
        done = threading.Event()

        def work():
            try:
                while not done.is_set():
                    for _path, subkeys, _values in self.hive.walk():
                        self.assertEqual(names(subkeys), sorted(names(subkeys)))
                    list(self.hive.subkeys("Many"))
            except BaseException as why:
                failed.append(why)

        threads = [threading.Thread(target=work) for _thread in range(2)]
        for thread in threads:
            thread.start()
        for turn in range(20):
            with self.root.create("Turns\\Turn\\Below") as key:
                key["Turn"] = bytes(turn * 10_000)
            self.root.delete_tree("Turns")
        done.set()
        for thread in threads:
            thread.join()
        self.assertEqual(failed, [])


if __name__ == "__main__":
    unittest.main()
