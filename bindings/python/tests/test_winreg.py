"""The stand-in for winreg. What is expected is what the documentation of the standard module says, and docs/RULES.md."""

import inspect
import itertools
import os
import struct
import tempfile
import threading
import time
import unittest
from pathlib import Path
from unittest import mock

from zugmeled import Hive, _files, winreg
from zugmeled.winreg import HKEY_CURRENT_USER, HKEY_LOCAL_MACHINE, HKEY_USERS, KEY_ALL_ACCESS

ROOTS = [
    "HKEY_CLASSES_ROOT",
    "HKEY_CURRENT_USER",
    "HKEY_LOCAL_MACHINE",
    "HKEY_USERS",
    "HKEY_PERFORMANCE_DATA",
    "HKEY_CURRENT_CONFIG",
    "HKEY_DYN_DATA",
]


class WinregTest(unittest.TestCase):
    """HKEY_CURRENT_USER is a hive in memory; nothing else is mounted."""

    def setUp(self):
        self.mounted = winreg.mount(HKEY_CURRENT_USER)
        self.addCleanup(self.mounted.unmount)
        folder = tempfile.TemporaryDirectory()
        self.addCleanup(folder.cleanup)
        self.folder = Path(folder.name)

    def mount(self, root, path, file=None, **named):
        mounted = winreg.mount(root, path, file, **named)
        self.addCleanup(mounted.unmount, save=False)
        return mounted

    def hive_file(self, name="SOFTWARE.hive", key="Zug"):
        """A file with a hive of one key."""
        path = self.folder / name
        with Hive.new() as hive:
            hive.root.create(key)["Version"] = 4
            hive.save(path)
        return path

    def assertStatus(self, status, call, *arguments, **named):
        with self.assertRaises(OSError) as raised:
            call(*arguments, **named)
        self.assertEqual(raised.exception.winerror, status)
        return raised.exception


class ConstantTest(unittest.TestCase):
    def test_roots(self):
        for number, name in enumerate(ROOTS):
            # The numbers of winreg.h, widened with their sign to 64 bits.
            self.assertEqual(getattr(winreg, name), 0xFFFFFFFF80000000 + number)

    def test_rights(self):
        rights = {
            "ALL_ACCESS": 0xF003F,
            "WRITE": 0x20006,
            "READ": 0x20019,
            "EXECUTE": 0x20019,
            "QUERY_VALUE": 1,
            "SET_VALUE": 2,
            "CREATE_SUB_KEY": 4,
            "ENUMERATE_SUB_KEYS": 8,
            "NOTIFY": 0x10,
            "CREATE_LINK": 0x20,
            "WOW64_64KEY": 0x100,
            "WOW64_32KEY": 0x200,
        }
        for name, number in rights.items():
            self.assertEqual(getattr(winreg, "KEY_" + name), number)

    def test_types(self):
        types = {
            "NONE": 0,
            "SZ": 1,
            "EXPAND_SZ": 2,
            "BINARY": 3,
            "DWORD": 4,
            "DWORD_LITTLE_ENDIAN": 4,
            "DWORD_BIG_ENDIAN": 5,
            "LINK": 6,
            "MULTI_SZ": 7,
            "RESOURCE_LIST": 8,
            "FULL_RESOURCE_DESCRIPTOR": 9,
            "RESOURCE_REQUIREMENTS_LIST": 10,
            "QWORD": 11,
            "QWORD_LITTLE_ENDIAN": 11,
        }
        for name, number in types.items():
            self.assertEqual(getattr(winreg, "REG_" + name), number)

    def test_error(self):
        self.assertIs(winreg.error, OSError)

    def test_arguments(self):
        documented = {
            "CloseKey": "(hkey, /)",
            "ConnectRegistry": "(computer_name, key, /)",
            "CreateKey": "(key, sub_key, /)",
            "CreateKeyEx": "(key, sub_key, reserved=0, access=131078)",
            "DeleteKey": "(key, sub_key, /)",
            "DeleteKeyEx": "(key, sub_key, access=256, reserved=0)",
            "DeleteValue": "(key, value, /)",
            "EnumKey": "(key, index, /)",
            "EnumValue": "(key, index, /)",
            "ExpandEnvironmentStrings": "(string, /)",
            "FlushKey": "(key, /)",
            "LoadKey": "(key, sub_key, file_name, /)",
            "OpenKey": "(key, sub_key, reserved=0, access=131097)",
            "OpenKeyEx": "(key, sub_key, reserved=0, access=131097)",
            "QueryInfoKey": "(key, /)",
            "QueryValue": "(key, sub_key, /)",
            "QueryValueEx": "(key, name, /)",
            "SaveKey": "(key, file_name, /)",
            "SetValue": "(key, sub_key, type, value, /)",
            "SetValueEx": "(key, value_name, reserved, type, value, /)",
            "DisableReflectionKey": "(key, /)",
            "EnableReflectionKey": "(key, /)",
            "QueryReflectionKey": "(key, /)",
        }
        for name, arguments in documented.items():
            signature = inspect.signature(getattr(winreg, name))
            bare = [parameter.replace(annotation=inspect.Parameter.empty) for parameter in signature.parameters.values()]
            self.assertEqual(str(inspect.Signature(bare)), arguments)


    def test_star_import(self):
        names = {}
        exec("from zugmeled.winreg import *", names)
        for name in ("OpenKey", "HKEYType", "error", "REG_SZ", "KEY_READ", "HKEY_USERS", "mount", "unmount"):
            self.assertIs(names[name], getattr(winreg, name))
        self.assertNotIn("os", names)


class HandleTest(WinregTest):
    def test_handle(self):
        key = winreg.CreateKey(HKEY_CURRENT_USER, "A")
        self.assertIs(type(key), winreg.HKEYType)
        self.assertEqual(type(key).__name__, "PyHKEY")
        self.assertTrue(key)
        self.assertNotEqual(key.handle, 0)
        self.assertEqual(int(key), key.handle)
        self.assertIn(f"{key.handle:X}", str(key))
        number = key.handle
        key.Close()
        self.assertEqual((key.handle, bool(key)), (0, False))
        key.Close()
        self.assertStatus(6, winreg.QueryInfoKey, number)
        self.assertStatus(6, winreg.QueryInfoKey, key)

    def test_number_in_place_of_a_key(self):
        key = winreg.CreateKey(HKEY_CURRENT_USER, "A")
        self.assertEqual(winreg.QueryInfoKey(key.handle)[:2], (0, 0))
        winreg.CreateKey(int(key), "B").Close()
        self.assertEqual(winreg.EnumKey(key, 0), "B")

    def test_detach(self):
        key = winreg.CreateKey(HKEY_CURRENT_USER, "A")
        number = key.Detach()
        self.assertFalse(key)
        del key
        self.assertEqual(winreg.QueryInfoKey(number)[:2], (0, 0))
        winreg.CloseKey(number)
        self.assertStatus(6, winreg.CloseKey, number)

    def test_close_key(self):
        key = winreg.CreateKey(HKEY_CURRENT_USER, "A")
        winreg.CloseKey(key)
        winreg.CloseKey(key)
        self.assertFalse(key)
        winreg.CloseKey(HKEY_CURRENT_USER)
        winreg.CloseKey(0)
        self.assertEqual(winreg.EnumKey(HKEY_CURRENT_USER, 0), "A")

    def test_context_manager(self):
        with self.assertRaises(KeyError):
            with winreg.CreateKey(HKEY_CURRENT_USER, "A") as key:
                raise KeyError
        self.assertFalse(key)

    def test_comparison_and_hash(self):
        one, other = (winreg.CreateKey(HKEY_CURRENT_USER, "A") for _key in range(2))
        self.assertEqual(one, one)
        self.assertNotEqual(one, other)
        self.assertNotEqual(one, one.handle)
        self.assertEqual(len({one, other, one}), 2)

    def test_handles_that_go_are_closed(self):
        for _open in range(20_000):
            # A session has 16,384 handles.
            winreg.OpenKey(HKEY_CURRENT_USER, "")

    def test_wrong_keys(self):
        for key in ("text", 1.5, b""):
            with self.assertRaisesRegex(TypeError, "not a PyHKEY"):
                winreg.OpenKey(key, "A")
        with self.assertRaises(TypeError):
            winreg.OpenKey(None, "A")
        self.assertStatus(6, winreg.OpenKey, 0, "A")
        self.assertStatus(6, winreg.OpenKey, 12345, "A")

    def test_numbers_of_handles_are_no_roots(self):
        self.mount(HKEY_LOCAL_MACHINE, "SOFTWARE")
        mounted = [self.mount(getattr(winreg, name), "") for name in ROOTS if name not in ("HKEY_CURRENT_USER", "HKEY_LOCAL_MACHINE")]
        for first in (0x7FFFFFFC, 0xFFFFFFFF7FFFFFFC):
            with mock.patch.object(winreg, "_numbers", itertools.count(first, 4)):
                keys = [winreg.CreateKey(HKEY_LOCAL_MACHINE, rf"SOFTWARE\Key{number}") for number in range(4)]
            self.assertEqual(len({key.handle for key in keys}), 4)
            for number, key in enumerate(keys):
                winreg.SetValueEx(key, "Number", 0, winreg.REG_DWORD, number)
            for number, key in enumerate(keys):
                self.assertEqual(winreg.QueryValueEx(key, "Number"), (number, winreg.REG_DWORD))
                key.Close()
        self.assertEqual([it.hive.root.values() for it in mounted], [[]] * 5)

    def test_roots_of_32_bits(self):
        winreg.CreateKey(0x80000001, "A").Close()
        self.assertEqual(winreg.EnumKey(HKEY_CURRENT_USER, 0), "A")

    def test_roots_with_their_sign(self):
        """Numbers are widened as CPython widens them, so that those of pywin32 are the roots'."""
        current_user, local_machine = -2147483647, -2147483646
        winreg.CreateKey(current_user, "A").Close()
        self.assertEqual(winreg.EnumKey(HKEY_CURRENT_USER, 0), "A")
        self.assertEqual(winreg.CreateKey(current_user, None).handle, HKEY_CURRENT_USER)
        self.mount(local_machine, "SOFTWARE")
        self.assertEqual(winreg.EnumKey(HKEY_LOCAL_MACHINE, 0), "SOFTWARE")
        winreg.unmount(local_machine, "SOFTWARE")
        for number in (-1, -2147483649, -(1 << 63), (1 << 64) - 1):
            self.assertStatus(6, winreg.OpenKey, number, "A")
        for number in (-(1 << 63) - 1, 1 << 64):
            self.assertRaises(OverflowError, winreg.OpenKey, number, "A")

    def test_type_is_immutable(self):
        self.assertEqual(winreg.HKEYType.__qualname__, "PyHKEY")
        with self.assertRaisesRegex(TypeError, "cannot set 'foo' attribute of immutable type 'PyHKEY'"):
            winreg.HKEYType.foo = "bar"
        with self.assertRaisesRegex(TypeError, "immutable"):
            del winreg.HKEYType.Close


class KeyTest(WinregTest):
    def test_create_and_open(self):
        with winreg.CreateKey(HKEY_CURRENT_USER, r"Software\Zug") as key:
            winreg.SetValueEx(key, "Name", 0, winreg.REG_SZ, "text")
        with winreg.OpenKey(HKEY_CURRENT_USER, r"SOFTWARE\zug") as key:
            self.assertEqual(winreg.QueryValueEx(key, "name"), ("text", winreg.REG_SZ))
            # It is opened to be read.
            raised = self.assertStatus(5, winreg.SetValueEx, key, "Name", 0, winreg.REG_SZ, "")
            self.assertIsInstance(raised, PermissionError)
        with winreg.OpenKeyEx(key=HKEY_CURRENT_USER, sub_key="Software", access=KEY_ALL_ACCESS) as key:
            winreg.SetValueEx(key, "Name", 0, winreg.REG_SZ, "")

    def test_create_key_ex(self):
        with winreg.CreateKeyEx(key=HKEY_CURRENT_USER, sub_key="A") as key:
            winreg.SetValueEx(key, "Name", 0, winreg.REG_SZ, "text")
            self.assertStatus(5, winreg.QueryValueEx, key, "Name")
        with winreg.CreateKeyEx(HKEY_CURRENT_USER, "A", 0, winreg.KEY_READ) as key:
            self.assertEqual(winreg.QueryValueEx(key, "Name")[0], "text")

    def test_no_sub_key(self):
        for sub_key in (None, ""):
            for call in (winreg.OpenKey, winreg.CreateKey, winreg.CreateKeyEx):
                with call(HKEY_CURRENT_USER, sub_key) as key:
                    self.assertTrue(key)

    def test_a_root_itself(self):
        """Of a root and None the handle that is returned is the root's own, as the documentation says."""
        for root in (HKEY_CURRENT_USER, 0x80000001, HKEY_USERS):
            for call in (winreg.CreateKey, winreg.CreateKeyEx):
                with call(root, None) as key:
                    self.assertIs(type(key), winreg.HKEYType)
                    self.assertEqual(key.handle, root)
                    self.assertEqual(call(key, None).handle, root)
                self.assertFalse(key)
                self.assertEqual(winreg.QueryInfoKey(root)[:2], (0, 0))
                # Each other handle is a new one.
                with call(root, "") as key:
                    self.assertNotEqual(key.handle, root)
                    self.assertNotEqual(call(key, None).handle, key.handle)

    def test_missing(self):
        raised = self.assertStatus(2, winreg.OpenKey, HKEY_CURRENT_USER, "None")
        self.assertIsInstance(raised, FileNotFoundError)
        self.assertStatus(2, winreg.DeleteKey, HKEY_CURRENT_USER, "None")

    def test_names_past_ascii_are_missing(self):
        for call in (winreg.OpenKey, winreg.OpenKeyEx, winreg.DeleteKey, winreg.DeleteKeyEx, winreg.QueryValue, winreg.QueryValueEx, winreg.DeleteValue):
            with self.subTest(call=call.__name__):
                self.assertIsInstance(self.assertStatus(2, call, HKEY_CURRENT_USER, "\u65e5"), FileNotFoundError)
        self.assertStatus(87, winreg.CreateKey, HKEY_CURRENT_USER, "\u65e5")
        self.assertStatus(87, winreg.SetValueEx, HKEY_CURRENT_USER, "\u65e5", 0, winreg.REG_SZ, "")

    def test_paths(self):
        winreg.CreateKey(HKEY_CURRENT_USER, "A\\B").Close()
        for path in ("A\\B\\", "A\\\\B", "a\\b"):
            winreg.OpenKey(HKEY_CURRENT_USER, path).Close()
        self.assertStatus(161, winreg.OpenKey, HKEY_CURRENT_USER, "\\A")
        self.assertStatus(87, winreg.CreateKey, HKEY_CURRENT_USER, "n" * 256)

    def test_wrong_names(self):
        for call in (winreg.OpenKey, winreg.CreateKey, winreg.DeleteKey, winreg.QueryValueEx):
            with self.assertRaisesRegex(TypeError, r"\(\) argument '\w+' must be str"):
                call(HKEY_CURRENT_USER, 1)
            with self.assertRaisesRegex(ValueError, "embedded null character"):
                call(HKEY_CURRENT_USER, "a\0b")
        with self.assertRaises(TypeError):
            winreg.DeleteKey(HKEY_CURRENT_USER, None)

    def test_masks(self):
        def rights(access):
            """Which of reading, setting and deleting all a mask allows."""
            with winreg.OpenKey(HKEY_CURRENT_USER, "A", access=access) as key:
                allowed = []
                for name, call in (
                    ("read", lambda: winreg.QueryInfoKey(key)),
                    ("set", lambda: winreg.SetValueEx(key, "Name", 0, winreg.REG_NONE, None)),
                    ("list", lambda: [winreg.EnumKey(key, 0)]),
                ):
                    try:
                        call()
                        allowed.append(name)
                    except PermissionError:
                        pass
            return allowed

        winreg.CreateKey(HKEY_CURRENT_USER, "A\\B").Close()
        read, write, everything = ["read", "list"], ["set"], ["read", "set", "list"]
        self.assertEqual(rights(winreg.KEY_READ | winreg.KEY_WOW64_64KEY), read)
        self.assertEqual(rights(winreg.KEY_WRITE | winreg.KEY_WOW64_32KEY), write)
        self.assertEqual(rights(0x02000000), everything)
        self.assertEqual(rights(0x10000000), everything)
        self.assertEqual(rights(0x80000000), read)
        self.assertEqual(rights(-0x80000000), read)
        self.assertEqual(rights(0x40000000), write)
        self.assertEqual(rights(0x20000000), read)
        self.assertEqual(rights(0xC0000000), everything)
        self.assertStatus(87, winreg.OpenKey, HKEY_CURRENT_USER, "A", 0, 0x400)
        for access in (1 << 32 | winreg.KEY_READ, -0x80000001):
            for call in (winreg.OpenKey, winreg.CreateKeyEx):
                self.assertRaises(OverflowError, call, HKEY_CURRENT_USER, "A", 0, access)

    def test_delete_key(self):
        winreg.CreateKey(HKEY_CURRENT_USER, "A\\B").Close()
        self.assertStatus(5, winreg.DeleteKey, HKEY_CURRENT_USER, "A")
        winreg.DeleteKey(HKEY_CURRENT_USER, "a\\b")
        winreg.DeleteKeyEx(key=HKEY_CURRENT_USER, sub_key="A", access=KEY_ALL_ACCESS, reserved=0)
        self.assertStatus(259, winreg.EnumKey, HKEY_CURRENT_USER, 0)

    def test_deleted_key(self):
        key = winreg.CreateKey(HKEY_CURRENT_USER, "A")
        winreg.DeleteKey(HKEY_CURRENT_USER, "A")
        self.assertStatus(1018, winreg.QueryInfoKey, key)
        key.Close()

    def test_enum_key(self):
        for name in ("b", "A"):
            winreg.CreateKey(HKEY_CURRENT_USER, name).Close()
        self.assertEqual([winreg.EnumKey(HKEY_CURRENT_USER, index) for index in range(2)], ["A", "b"])
        self.assertStatus(259, winreg.EnumKey, HKEY_CURRENT_USER, 2)
        self.assertStatus(259, winreg.EnumKey, HKEY_CURRENT_USER, -1)
        with self.assertRaises(OverflowError):
            winreg.EnumKey(HKEY_CURRENT_USER, 1 << 31)

    def test_query_info_key(self):
        before = time.time()
        with winreg.CreateKey(HKEY_CURRENT_USER, "A") as key:
            winreg.CreateKey(key, "B").Close()
            winreg.SetValueEx(key, "Name", 0, winreg.REG_SZ, "")
            subkeys, values, written = winreg.QueryInfoKey(key)
        self.assertEqual((subkeys, values), (1, 1))
        # 11,644,473,600 seconds lie between 1601 and 1970.
        seconds = written / 10_000_000 - 11_644_473_600
        self.assertTrue(before - 1 < seconds < time.time() + 1)

    def test_connect_registry(self):
        with winreg.ConnectRegistry(None, HKEY_CURRENT_USER) as key:
            winreg.CreateKey(key, "A").Close()
        self.assertEqual(winreg.EnumKey(HKEY_CURRENT_USER, 0), "A")
        self.assertIsInstance(self.assertStatus(53, winreg.ConnectRegistry, r"\\other", HKEY_CURRENT_USER), OSError)
        with winreg.CreateKey(HKEY_CURRENT_USER, "A") as key:
            self.assertStatus(6, winreg.ConnectRegistry, None, key)

    def test_reflection(self):
        with winreg.CreateKey(HKEY_CURRENT_USER, "A") as key:
            self.assertIsNone(winreg.DisableReflectionKey(key))
            self.assertIsNone(winreg.EnableReflectionKey(key))
            self.assertIs(winreg.QueryReflectionKey(key), True)
        for call in (winreg.DisableReflectionKey, winreg.EnableReflectionKey, winreg.QueryReflectionKey):
            self.assertStatus(6, call, key)


class ValueTest(WinregTest):
    DATA = [
        (45, winreg.REG_DWORD),
        (0x1122334455667788, winreg.REG_QWORD),
        ("text", winreg.REG_SZ),
        ("%path%", winreg.REG_EXPAND_SZ),
        (["some", "texts"], winreg.REG_MULTI_SZ),
        (b"binary\0data", winreg.REG_BINARY),
        (b"\0\0\0\5", winreg.REG_DWORD_BIG_ENDIAN),
        (None, winreg.REG_NONE),
        ("x" * 500_000, winreg.REG_SZ),
        ("\u65e5\u672c", winreg.REG_SZ),
    ]

    def test_set_and_query(self):
        for value, kind in self.DATA:
            with self.subTest(kind=kind):
                winreg.SetValueEx(HKEY_CURRENT_USER, "Name", 0, kind, value)
                self.assertEqual(winreg.QueryValueEx(HKEY_CURRENT_USER, "NAME"), (value, kind))
                self.assertEqual(winreg.EnumValue(HKEY_CURRENT_USER, 0), ("Name", value, kind))

    def test_wrong_data(self):
        for value, kind, expected in (
            ("1", winreg.REG_DWORD, ValueError),
            (-1, winreg.REG_DWORD, OverflowError),
            (1 << 32, winreg.REG_DWORD, OverflowError),
            (1, winreg.REG_SZ, ValueError),
            ("a", winreg.REG_MULTI_SZ, ValueError),
            ("a", winreg.REG_BINARY, TypeError),
        ):
            with self.subTest(value=value, kind=kind), self.assertRaises(expected):
                winreg.SetValueEx(HKEY_CURRENT_USER, "Name", 0, kind, value)
        self.assertStatus(2, winreg.QueryValueEx, HKEY_CURRENT_USER, "Name")

    def test_types_that_are_no_numbers_of_32_bits(self):
        self.assertRaises(OverflowError, winreg.SetValueEx, HKEY_CURRENT_USER, "Name", 0, 1 << 32 | winreg.REG_DWORD, 1)
        self.assertRaises(ValueError, winreg.SetValueEx, HKEY_CURRENT_USER, "Name", 0, -1, b"")
        self.assertRaises(TypeError, winreg.SetValueEx, HKEY_CURRENT_USER, "Name", 0, "4", 1)
        self.assertStatus(2, winreg.QueryValueEx, HKEY_CURRENT_USER, "Name")
        winreg.SetValueEx(HKEY_CURRENT_USER, "Name", 0, 0xFFFFFFFF, b"data")
        self.assertEqual(winreg.QueryValueEx(HKEY_CURRENT_USER, "Name"), (b"data", 0xFFFFFFFF))

    def test_default_value(self):
        for name in (None, ""):
            winreg.SetValueEx(HKEY_CURRENT_USER, name, None, winreg.REG_DWORD, 1)
            self.assertEqual(winreg.QueryValueEx(HKEY_CURRENT_USER, name), (1, winreg.REG_DWORD))
            winreg.DeleteValue(HKEY_CURRENT_USER, name)
            self.assertStatus(2, winreg.QueryValueEx, HKEY_CURRENT_USER, name)

    def test_set_value(self):
        winreg.SetValue(HKEY_CURRENT_USER, r"A\B", winreg.REG_SZ, "below")
        winreg.SetValue(HKEY_CURRENT_USER, None, winreg.REG_SZ, "own")
        self.assertEqual(winreg.QueryValue(HKEY_CURRENT_USER, r"a\b"), "below")
        self.assertEqual(winreg.QueryValue(HKEY_CURRENT_USER, ""), "own")
        self.assertEqual(winreg.QueryValue(HKEY_CURRENT_USER, None), "own")
        with self.assertRaisesRegex(TypeError, "type must be winreg.REG_SZ"):
            winreg.SetValue(HKEY_CURRENT_USER, "A", winreg.REG_DWORD, "1")
        with self.assertRaises(TypeError):
            winreg.SetValue(HKEY_CURRENT_USER, "A", winreg.REG_SZ, 1)

    def test_query_value(self):
        winreg.CreateKey(HKEY_CURRENT_USER, "A").Close()
        self.assertEqual(winreg.QueryValue(HKEY_CURRENT_USER, "A"), "")
        self.assertIsInstance(self.assertStatus(2, winreg.QueryValue, HKEY_CURRENT_USER, "None"), FileNotFoundError)
        with winreg.CreateKey(HKEY_CURRENT_USER, "A") as key:
            winreg.SetValueEx(key, None, 0, winreg.REG_DWORD, 1)
            self.assertStatus(13, winreg.QueryValue, key, None)

    def test_query_value_of_the_handle_itself(self):
        winreg.SetValue(HKEY_CURRENT_USER, r"A\B", winreg.REG_SZ, "below")
        with winreg.CreateKeyEx(HKEY_CURRENT_USER, "A", 0, winreg.KEY_SET_VALUE) as key:
            winreg.SetValueEx(key, None, 0, winreg.REG_SZ, "own")
            for sub_key in (None, ""):
                self.assertStatus(5, winreg.QueryValue, key, sub_key)
            # Another key is opened to be read, whatever the handle allows.
            self.assertEqual(winreg.QueryValue(key, "B"), "below")
        with winreg.OpenKey(HKEY_CURRENT_USER, "A", 0, winreg.KEY_QUERY_VALUE) as key:
            self.assertEqual(winreg.QueryValue(key, None), "own")

    def test_enum_value(self):
        for name in ("b", "a"):
            winreg.SetValueEx(HKEY_CURRENT_USER, name, 0, winreg.REG_SZ, name)
        self.assertEqual(winreg.EnumValue(HKEY_CURRENT_USER, 0), ("b", "b", winreg.REG_SZ))
        self.assertEqual(winreg.EnumValue(HKEY_CURRENT_USER, 1), ("a", "a", winreg.REG_SZ))
        self.assertStatus(259, winreg.EnumValue, HKEY_CURRENT_USER, 2)

    def test_delete_value(self):
        winreg.SetValueEx(HKEY_CURRENT_USER, "Name", 0, winreg.REG_SZ, "")
        winreg.DeleteValue(HKEY_CURRENT_USER, "NAME")
        self.assertStatus(2, winreg.DeleteValue, HKEY_CURRENT_USER, "Name")
        with winreg.OpenKey(HKEY_CURRENT_USER, "") as key:
            self.assertStatus(5, winreg.DeleteValue, key, "Name")

    def test_expand_environment_strings(self):
        names = {"WINDIR": "C:\\Windows", "name": "value"}
        with mock.patch.dict(os.environ, names, clear=True):
            for string, expanded in (
                ("%WINDIR%\\x", "C:\\Windows\\x"),
                ("%windir%", "C:\\Windows"),
                ("%NAME%%name%", "valuevalue"),
                ("%none%", "%none%"),
                ("%none%name%", "%nonevalue"),
                ("100%", "100%"),
                ("%%", "%%"),
                ("", ""),
            ):
                with self.subTest(string=string):
                    self.assertEqual(winreg.ExpandEnvironmentStrings(string), expanded)
        with self.assertRaises(TypeError):
            winreg.ExpandEnvironmentStrings(None)


class MountTest(WinregTest):
    def test_mount_below_a_root(self):
        self.mount(HKEY_LOCAL_MACHINE, "SOFTWARE", self.hive_file())
        with winreg.OpenKey(HKEY_LOCAL_MACHINE, r"Software\Zug") as key:
            self.assertEqual(winreg.QueryValueEx(key, "Version")[0], 4)
        with winreg.ConnectRegistry(None, HKEY_LOCAL_MACHINE) as root:
            with winreg.OpenKey(root, r"software\zug") as key:
                self.assertEqual(winreg.QueryValueEx(key, "Version")[0], 4)
            self.assertEqual(winreg.EnumKey(root, 0), "SOFTWARE")
            self.assertStatus(259, winreg.EnumKey, root, 1)
            self.assertEqual(winreg.QueryInfoKey(root)[:2], (1, 0))

    def test_mount_of_a_root(self):
        self.mount(HKEY_USERS, "", self.hive_file())
        self.assertEqual(winreg.EnumKey(HKEY_USERS, 0), "Zug")
        winreg.SetValueEx(HKEY_USERS, "Name", 0, winreg.REG_DWORD, 1)
        self.assertEqual(winreg.QueryInfoKey(HKEY_USERS)[:2], (1, 1))

    def test_longest_path_wins(self):
        self.mount(HKEY_LOCAL_MACHINE, "SOFTWARE", self.hive_file("outer.hive", "Outer"))
        self.mount(HKEY_LOCAL_MACHINE, r"SOFTWARE\Inner", self.hive_file("inner.hive", "Deep"))
        names = []
        winreg.OpenKey(HKEY_LOCAL_MACHINE, r"software\inner\deep").Close()
        winreg.OpenKey(HKEY_LOCAL_MACHINE, r"software\outer").Close()
        with winreg.OpenKey(HKEY_LOCAL_MACHINE, "SOFTWARE") as key:
            for index in range(winreg.QueryInfoKey(key)[0]):
                names.append(winreg.EnumKey(key, index))
            # From a key above it a path crosses into the mount, too.
            with winreg.OpenKey(key, r"inner\deep") as deep:
                self.assertEqual(winreg.QueryValueEx(deep, "Version")[0], 4)
            self.assertStatus(259, winreg.EnumKey, key, 2)
        self.assertEqual(names, ["Outer", "Inner"])
        self.assertStatus(2, winreg.OpenKey, HKEY_LOCAL_MACHINE, r"SOFTWARE\Deep")

    def test_mount_over_a_key(self):
        winreg.CreateKey(HKEY_CURRENT_USER, r"A\B\Hidden").Close()
        self.mount(HKEY_CURRENT_USER, r"a\b", self.hive_file())
        winreg.OpenKey(HKEY_CURRENT_USER, r"A\B\Zug").Close()
        self.assertStatus(2, winreg.OpenKey, HKEY_CURRENT_USER, r"A\B\Hidden")
        with winreg.OpenKey(HKEY_CURRENT_USER, "A") as key:
            self.assertEqual(winreg.QueryInfoKey(key)[0], 1)
            self.assertEqual(winreg.EnumKey(key, 0), "B")

    def test_indexes_beside_a_mount(self):
        self.mount(HKEY_LOCAL_MACHINE, "SOFTWARE")
        for index in (1, -1, (1 << 31) - 1, -(1 << 31)):
            self.assertStatus(259, winreg.EnumKey, HKEY_LOCAL_MACHINE, index)
        for index in (1 << 31, -(1 << 31) - 1):
            self.assertRaises(OverflowError, winreg.EnumKey, HKEY_LOCAL_MACHINE, index)

    def test_mounts_are_not_deleted(self):
        winreg.CreateKey(HKEY_CURRENT_USER, "A").Close()
        self.mount(HKEY_CURRENT_USER, r"A\B", self.hive_file())
        self.assertStatus(5, winreg.DeleteKey, HKEY_CURRENT_USER, "A")
        self.assertStatus(5, winreg.DeleteKey, HKEY_CURRENT_USER, r"A\B")
        winreg.DeleteKey(HKEY_CURRENT_USER, r"A\B\Zug")

    def test_bad_mounts(self):
        path = self.hive_file()
        self.assertStatus(2, winreg.mount, HKEY_LOCAL_MACHINE, r"None\A", path)
        self.assertStatus(161, winreg.mount, HKEY_LOCAL_MACHINE, "\\A", path)
        self.assertStatus(6, winreg.mount, 5, "A", path)
        self.assertStatus(183, winreg.mount, HKEY_CURRENT_USER, "", path)
        raised = self.assertStatus(2, winreg.mount, HKEY_LOCAL_MACHINE, "A", self.folder / "none.hive")
        self.assertIsInstance(raised, FileNotFoundError)
        bad = self.folder / "bad.hive"
        bad.write_bytes(b"none")
        self.assertStatus(1017, winreg.mount, HKEY_LOCAL_MACHINE, "A", bad)
        self.mount(HKEY_LOCAL_MACHINE, "A", path)
        self.assertStatus(32, winreg.mount, HKEY_LOCAL_MACHINE, "B", path)

    def test_nothing_mounted(self):
        for root in (getattr(winreg, name) for name in ROOTS if name != "HKEY_CURRENT_USER"):
            with winreg.OpenKey(root, "") as key:
                self.assertEqual(winreg.QueryInfoKey(key)[:2], (0, 0))
            self.assertStatus(2, winreg.OpenKey, root, "A")
            self.assertStatus(5, winreg.CreateKey, root, "A")
            self.assertStatus(2, winreg.DeleteKey, root, "A")
            self.assertStatus(5, winreg.SetValueEx, root, "Name", 0, winreg.REG_SZ, "")
            winreg.CreateKey(root, "").Close()

    def test_unmount_saves(self):
        path = self.hive_file()
        winreg.mount(HKEY_LOCAL_MACHINE, "SOFTWARE", path)
        key = winreg.CreateKey(HKEY_LOCAL_MACHINE, r"SOFTWARE\New")
        winreg.unmount(HKEY_LOCAL_MACHINE, "Software")
        self.assertStatus(6, winreg.QueryInfoKey, key)
        self.assertStatus(2, winreg.OpenKey, HKEY_LOCAL_MACHINE, "SOFTWARE")
        self.assertStatus(2, winreg.unmount, HKEY_LOCAL_MACHINE, "SOFTWARE")
        key.Close()
        with Hive.open(path) as hive:
            self.assertEqual(hive.root.subkeys(), ["New", "Zug"])

    def test_no_change_is_lost_by_an_unmount(self):
        path = self.hive_file()
        winreg.mount(HKEY_LOCAL_MACHINE, "SOFTWARE", path)
        key = winreg.CreateKey(HKEY_LOCAL_MACHINE, r"SOFTWARE\New")
        write, raised, threads = _files._write, [], []

        def change():
            try:
                winreg.SetValueEx(key, "Late", 0, winreg.REG_DWORD, 1)
            except OSError as why:
                raised.append(why.winerror)

        def written(descriptor, data):
            # The image has been made by now.
            threads.append(threading.Thread(target=change, daemon=True))
            threads[0].start()
            threads[0].join(0.2)
            write(descriptor, data)

        with mock.patch.object(_files, "_write", written):
            winreg.unmount(HKEY_LOCAL_MACHINE, "SOFTWARE")
        threads[0].join(60)
        self.assertEqual(raised, [6])
        with Hive.open(path) as hive:
            self.assertEqual(hive.root.open("New").values(), [])

    def test_unmount_that_is_not_saved(self):
        path = self.hive_file()
        mounted = self.mount(HKEY_LOCAL_MACHINE, "SOFTWARE", path)
        winreg.CreateKey(HKEY_LOCAL_MACHINE, r"SOFTWARE\New").Close()
        with mock.patch.object(os, "rename", side_effect=PermissionError(13, "no")):
            self.assertStatus(5, winreg.unmount, HKEY_LOCAL_MACHINE, "SOFTWARE")
        winreg.CreateKey(HKEY_LOCAL_MACHINE, r"SOFTWARE\Newer").Close()
        winreg.unmount(HKEY_LOCAL_MACHINE, "SOFTWARE")
        mounted.unmount()
        with Hive.open(path) as hive:
            self.assertEqual(hive.root.subkeys(), ["New", "Newer", "Zug"])

    def test_two_mounts_at_once(self):
        """Of two threads that mount at one path one is refused."""
        opened = Hive.open

        def late(path, **named):
            # Another thread comes between.
            with mock.patch.object(Hive, "open", opened):
                self.mount(HKEY_LOCAL_MACHINE, "SOFTWARE", self.hive_file("first.hive"))
            return opened(path, **named)

        path = self.hive_file()
        with mock.patch.object(Hive, "open", late):
            self.assertStatus(183, winreg.mount, HKEY_LOCAL_MACHINE, "SOFTWARE", path)
        # The other's lock was given up.
        Hive.open(path).close()
        winreg.OpenKey(HKEY_LOCAL_MACHINE, r"SOFTWARE\Zug").Close()

    def test_unmount_without_saving(self):
        path = self.hive_file()
        before = path.read_bytes()
        winreg.mount(HKEY_LOCAL_MACHINE, "SOFTWARE", path)
        winreg.CreateKey(HKEY_LOCAL_MACHINE, r"SOFTWARE\New").Close()
        winreg.unmount(HKEY_LOCAL_MACHINE, "SOFTWARE", save=False)
        self.assertEqual(path.read_bytes(), before)

    def test_what_did_not_change_is_not_saved(self):
        path = self.hive_file()
        before = path.stat().st_ino
        with winreg.mount(HKEY_LOCAL_MACHINE, "SOFTWARE", path):
            winreg.OpenKey(HKEY_LOCAL_MACHINE, r"SOFTWARE\Zug").Close()
        self.assertEqual(path.stat().st_ino, before)

    def test_mount_as_context_manager(self):
        path = self.hive_file()
        with winreg.mount(HKEY_LOCAL_MACHINE, "SOFTWARE", path):
            winreg.SetValue(HKEY_LOCAL_MACHINE, r"SOFTWARE\New", winreg.REG_SZ, "saved")
        with self.assertRaises(KeyError):
            with winreg.mount(HKEY_LOCAL_MACHINE, "SOFTWARE", path):
                winreg.SetValue(HKEY_LOCAL_MACHINE, r"SOFTWARE\New", winreg.REG_SZ, "not saved")
                raise KeyError
        with winreg.mount(HKEY_LOCAL_MACHINE, "SOFTWARE", path):
            self.assertEqual(winreg.QueryValue(HKEY_LOCAL_MACHINE, r"SOFTWARE\New"), "saved")

    def test_create(self):
        path = self.folder / "new.hive"
        for _time in range(2):
            with winreg.mount(HKEY_LOCAL_MACHINE, "NEW", path, create=True):
                winreg.CreateKey(HKEY_LOCAL_MACHINE, r"NEW\A").Close()
        with Hive.open(path) as hive:
            self.assertEqual(hive.root.subkeys(), ["A"])

    def test_read_only(self):
        path = self.hive_file()
        path.chmod(0o444)
        with Hive.open(path, read_only=True):
            self.mount(HKEY_LOCAL_MACHINE, "SOFTWARE", path, read_only=True)
            with winreg.CreateKey(HKEY_LOCAL_MACHINE, r"SOFTWARE\Zug") as key:
                self.assertEqual(winreg.QueryValueEx(key, "Version")[0], 4)
                self.assertStatus(5, winreg.SetValueEx, key, "Version", 0, winreg.REG_DWORD, 5)
                self.assertStatus(5, winreg.DeleteValue, key, "Version")
            self.assertStatus(5, winreg.CreateKey, HKEY_LOCAL_MACHINE, r"SOFTWARE\New")
            self.assertStatus(5, winreg.DeleteKey, HKEY_LOCAL_MACHINE, r"SOFTWARE\Zug")
            self.assertStatus(2, winreg.DeleteKey, HKEY_LOCAL_MACHINE, r"SOFTWARE\None")
            winreg.FlushKey(HKEY_LOCAL_MACHINE)


class FileTest(WinregTest):
    def test_flush_key(self):
        path = self.hive_file()
        self.mount(HKEY_LOCAL_MACHINE, "SOFTWARE", path)
        with winreg.CreateKey(HKEY_LOCAL_MACHINE, r"SOFTWARE\New") as key:
            winreg.FlushKey(key)
            with Hive.open(path, read_only=True) as hive:
                self.assertEqual(hive.root.subkeys(), ["New", "Zug"])
        self.assertStatus(6, winreg.FlushKey, key)
        # A hive in memory has no file.
        winreg.FlushKey(HKEY_CURRENT_USER)

    def test_load_key(self):
        path = self.hive_file()
        winreg.LoadKey(HKEY_USERS, "S-1-5-21", str(path))
        try:
            winreg.CreateKey(HKEY_USERS, r"S-1-5-21\New").Close()
        finally:
            winreg.unmount(HKEY_USERS, "S-1-5-21")
        with Hive.open(path) as hive:
            self.assertEqual(hive.root.subkeys(), ["New", "Zug"])

    def test_load_key_below_a_key(self):
        path = self.hive_file()
        with winreg.CreateKey(HKEY_CURRENT_USER, "A") as key:
            winreg.LoadKey(key, "B", str(path))
            self.addCleanup(winreg.unmount, HKEY_CURRENT_USER, r"A\B")
            winreg.OpenKey(key, r"B\Zug").Close()
            self.assertStatus(183, winreg.LoadKey, key, "b", str(path))
        raised = self.assertStatus(2, winreg.LoadKey, HKEY_USERS, "None", str(self.folder / "none.hive"))
        self.assertIsInstance(raised, FileNotFoundError)

    def test_save_key_of_a_root(self):
        winreg.SetValue(HKEY_CURRENT_USER, "A", winreg.REG_SZ, "text")
        path = self.folder / "saved.hive"
        winreg.SaveKey(HKEY_CURRENT_USER, str(path))
        self.assertEqual(struct.unpack_from("<4sII", path.read_bytes()), (b"regf", 1, 1))
        with Hive.open(path) as hive:
            self.assertEqual(hive.root.open("A")[""], "text")
        raised = self.assertStatus(183, winreg.SaveKey, HKEY_CURRENT_USER, str(path))
        self.assertIsInstance(raised, FileExistsError)

    def test_save_key_of_another_key(self):
        winreg.SetValue(HKEY_CURRENT_USER, r"A\B", winreg.REG_SZ, "text")
        path = self.folder / "saved.hive"
        with winreg.OpenKey(HKEY_CURRENT_USER, "A") as key:
            winreg.SaveKey(key, str(path))
        with Hive.open(path) as hive:
            self.assertEqual(hive.root.subkeys(), ["B"])
            self.assertEqual(hive.root.open("B")[""], "text")


if __name__ == "__main__":
    unittest.main()
