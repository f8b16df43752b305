"""The audit events of the stand-in for winreg. What is expected is what the documentation of the standard module says."""

import ast
import subprocess
import sys
import tempfile
import unittest
from pathlib import Path

TOP = Path(__file__).resolve().parents[1]

# A hook stays until the process ends, so it is another process's.
BEGIN = """\
import sys
from zugmeled import winreg
from zugmeled.winreg import *

mount(HKEY_CURRENT_USER)
"""

CALLS = """\
events = []
sys.addaudithook(lambda event, told: event.startswith("winreg.") and events.append((event, told)))
key = CreateKey(HKEY_CURRENT_USER, "A")
CreateKeyEx(HKEY_CURRENT_USER, "A\\\\B", 0, KEY_READ).Close()
CreateKeyEx(HKEY_CURRENT_USER, None).Close()
OpenKey(key, "B").Close()
OpenKeyEx(key, None, 0, KEY_ALL_ACCESS).Close()
SetValue(key, "B", REG_SZ, "text")
SetValueEx(key, "Name", 0, REG_DWORD, 4)
QueryValue(key, "B")
QueryValueEx(key, "Name")
EnumKey(key, 0)
EnumValue(key.handle, 0)
QueryInfoKey(key)
DeleteValue(key, "Name")
DeleteKey(key, "B")
for index in (0, -1):
    try:
        EnumKey(key, index)
    except OSError:
        pass
try:
    DeleteKeyEx(key, "B")
except FileNotFoundError:
    pass
ExpandEnvironmentStrings("%none%")
ConnectRegistry(None, HKEY_CURRENT_USER).Close()
DisableReflectionKey(key)
EnableReflectionKey(key)
QueryReflectionKey(key)
SaveKey(key, sys.argv[1])
LoadKey(HKEY_USERS, "S", sys.argv[1])
winreg.unmount(HKEY_USERS, "S")
FlushKey(key)
CloseKey(key.Detach())
print(events)
"""

REFUSED = """\
def refuse(event, told):
    if event in ("winreg.CreateKey", "winreg.OpenKey/result"):
        raise RuntimeError(event)

sys.addaudithook(refuse)
said = []
for call in (CreateKey, OpenKey):
    try:
        call(HKEY_CURRENT_USER, "A" if call is CreateKey else "")
    except RuntimeError as why:
        said.append(str(why))
print((said, QueryInfoKey(HKEY_CURRENT_USER)[0], len(winreg._opened)))
"""

# The roots' numbers as the events have them: signed.
CURRENT_USER, USERS = -0x7FFFFFFF, -0x7FFFFFFD


class AuditTest(unittest.TestCase):
    def said_by(self, program, *words):
        done = subprocess.run([sys.executable, "-c", BEGIN + program, *words], cwd=TOP, capture_output=True, text=True)
        self.assertEqual(done.returncode, 0, done.stderr)
        return ast.literal_eval(done.stdout)

    def test_events(self):
        with tempfile.TemporaryDirectory() as folder:
            file = f"{folder}/saved.hive"
            events = self.said_by(CALLS, file)
        results = [told[0] for event, told in events if event == "winreg.OpenKey/result"]
        key, below, root, *others = results
        # The handle of a root and None is the root's own, and each other one is new.
        self.assertEqual(root, CURRENT_USER)
        self.assertEqual(len({key, below, *others}), 4)
        self.assertGreater(min(key, below, *others), 0)
        expected = [
            ("CreateKey", (CURRENT_USER, "A", 0x20006)),
            ("OpenKey/result", (key,)),
            ("CreateKey", (CURRENT_USER, "A\\B", 0x20019)),
            ("OpenKey/result", (below,)),
            ("CreateKey", (CURRENT_USER, None, 0x20006)),
            ("OpenKey/result", (root,)),
            ("OpenKey", (key, "B", 0x20019)),
            ("OpenKey/result", (others[0],)),
            ("OpenKey", (key, None, 0xF003F)),
            ("OpenKey/result", (others[1],)),
            ("SetValue", (key, "B", 1, "text")),
            ("SetValue", (key, "Name", 4, 4)),
            ("QueryValue", (key, "B", None)),
            ("QueryValue", (key, None, "Name")),
            ("EnumKey", (key, 0)),
            ("EnumValue", (key, 0)),
            ("QueryInfoKey", (key,)),
            ("DeleteValue", (key, "Name")),
            ("DeleteKey", (key, "B", 0)),
            ("EnumKey", (key, 0)),
            ("EnumKey", (key, -1)),
            ("DeleteKey", (key, "B", 0x100)),
            ("ExpandEnvironmentStrings", ("%none%",)),
            ("ConnectRegistry", (None, CURRENT_USER)),
            ("DisableReflectionKey", (key,)),
            ("EnableReflectionKey", (key,)),
            ("QueryReflectionKey", (key,)),
            ("SaveKey", (key, file)),
            ("LoadKey", (USERS, "S", file)),
            ("PyHKEY.Detach", (key,)),
        ]
        self.assertEqual(events, [(f"winreg.{event}", told) for event, told in expected])

    def test_a_hook_that_refuses(self):
        """Its exception comes out of the call, which makes no key and leaves none open."""
        self.assertEqual(self.said_by(REFUSED), (["winreg.CreateKey", "winreg.OpenKey/result"], 0, 0))


if __name__ == "__main__":
    unittest.main()
