"""Hive files: what is locked, and what is saved. What is expected is what docs/TOOL.md says of `edit`."""

import contextlib
import errno
import fcntl
import os
import signal
import stat
import struct
import subprocess
import sys
import tempfile
import threading
import unittest
from pathlib import Path
from unittest import mock

import zugmeled
from zugmeled import Hive, _files

MOMENT = 133_000_000_000_000_000


class FileTest(unittest.TestCase):
    def setUp(self):
        folder = tempfile.TemporaryDirectory()
        self.addCleanup(folder.cleanup)
        self.folder = Path(folder.name).resolve()
        self.path = self.folder / "my.hive"
        with Hive.new(clock=lambda: MOMENT) as hive:
            hive.save(self.path)

    def names(self):
        return sorted(os.listdir(self.folder))

    def sequence(self):
        return struct.unpack_from("<II", self.path.read_bytes(), 4)

    def assertInUse(self, call):
        with self.assertRaises(zugmeled.InUse) as raised:
            call()
        self.assertEqual(raised.exception.winerror, 32)
        self.assertIsInstance(raised.exception, BlockingIOError)


class OpenTest(FileTest):
    def test_open(self):
        with Hive.open(self.path) as hive:
            self.assertEqual(hive.path, str(self.path))
            self.assertEqual(hive.root.subkeys(), [])
            self.assertEqual(repr(hive), f"<Hive {str(self.path)!r}>")

    def test_open_of_no_file(self):
        with self.assertRaises(FileNotFoundError) as raised:
            Hive.open(self.folder / "none.hive")
        self.assertEqual(raised.exception.winerror, 2)
        with self.assertRaises(IsADirectoryError) as raised:
            Hive.open(self.folder)
        self.assertEqual(raised.exception.winerror, 5)
        with self.assertRaises(OSError) as raised:
            Hive.open("/dev/null")
        self.assertEqual(raised.exception.winerror, 31)

    def test_open_of_no_hive(self):
        self.path.write_bytes(b"none")
        with self.assertRaises(zugmeled.Error) as raised:
            Hive.open(self.path)
        self.assertEqual((raised.exception.winerror, raised.exception.fault), (1017, 2))
        # The lock was given up again.
        with open(self.path, "rb") as file:
            fcntl.flock(file, fcntl.LOCK_EX | fcntl.LOCK_NB)

    def test_one_at_a_time(self):
        with Hive.open(self.path) as hive:
            self.assertInUse(lambda: Hive.open(self.path))
            hive.root["Name"] = 1
            hive.save()
            # The saved file is another one, and locked too.
            self.assertInUse(lambda: Hive.open(self.path))
        with Hive.open(self.path) as hive:
            self.assertEqual(hive.root["Name"], 1)

    def test_lock_of_another_program(self):
        with open(self.path, "rb") as file:
            fcntl.flock(file, fcntl.LOCK_EX)
            self.assertInUse(lambda: Hive.open(self.path))

    def test_lock_goes_with_the_hive(self):
        hive = Hive.open(self.path)
        del hive
        Hive.open(self.path).close()

    def test_lock_beside_a_child(self):
        hive = Hive.open(self.path)
        ready, end = os.pipe()
        child = os.fork()
        if child == 0:
            # The child has the descriptor until it ends.
            os.close(end)
            os.read(ready, 1)
            os._exit(0)
        try:
            hive.close()
            Hive.open(self.path).close()
        finally:
            os.close(ready)
            os.close(end)
            os.waitpid(child, 0)

    def test_a_child_gives_up_no_lock(self):
        with Hive.open(self.path) as hive:
            child = os.fork()
            if child == 0:
                hive._file.close()
                os._exit(0)
            self.assertEqual(os.waitpid(child, 0)[1], 0)
            self.assertInUse(lambda: Hive.open(self.path))

    def test_a_child_leaves_a_hive_alone(self):
        hive = Hive.open(self.path)
        with hive._lock:
            child = os.fork()
            if child == 0:
                signal.alarm(30)
                # The lock is of a thread that the child lacks.
                del hive
                os._exit(0)
        self.assertEqual(os.waitpid(child, 0)[1], 0)
        self.assertInUse(lambda: Hive.open(self.path))
        hive.close()

    def test_read_only(self):
        with Hive.open(self.path), Hive.open(self.path, read_only=True) as hive:
            self.assertIsNone(hive.path)
            with self.assertRaises(ValueError):
                hive.save()
            hive.save(self.folder / "copy.hive")
        self.assertEqual(self.names(), ["copy.hive", "my.hive"])


class SaveTest(FileTest):
    def test_new_file(self):
        self.assertEqual(self.sequence(), (1, 1))
        self.assertEqual(self.path.read_bytes()[12:20], struct.pack("<Q", MOMENT))
        self.assertEqual(self.names(), ["my.hive"])

    def test_never_over_a_file(self):
        before = self.path.read_bytes()
        with Hive.new() as hive:
            with self.assertRaises(FileExistsError) as raised:
                hive.save(self.path)
            self.assertEqual(raised.exception.winerror, 183)
            with self.assertRaises(ValueError):
                hive.save()
        self.assertEqual(self.path.read_bytes(), before)

    def test_sequence_goes_on(self):
        with Hive.open(self.path) as hive:
            hive.save()
            hive.save(self.path)
            self.assertEqual(self.sequence(), (3, 3))
            # Another file has the next number, and the own one's stays.
            hive.save(self.folder / "copy.hive")
            hive.save()
            self.assertEqual(self.sequence(), (4, 4))
        self.assertEqual(self.names(), ["copy.hive", "my.hive"])

    def test_sequence_begins_again(self):
        image = bytearray(self.path.read_bytes())
        struct.pack_into("<II", image, 4, 0xFFFFFFFF, 0xFFFFFFFF)
        checksum = 0
        for (word,) in struct.iter_unpack("<I", image[:508]):
            checksum ^= word
        struct.pack_into("<I", image, 508, checksum)
        self.path.write_bytes(image)
        with Hive.open(self.path) as hive:
            hive.save()
            self.assertEqual(self.sequence(), (0, 0))
            hive.save()
            self.assertEqual(self.sequence(), (1, 1))

    def test_changed(self):
        with Hive.open(self.path) as hive:
            hive.root["Name"] = 1
            hive.save(self.folder / "copy.hive")
            self.assertTrue(hive.changed)
            hive.save()
            self.assertFalse(hive.changed)

    def test_mode_is_kept(self):
        for mode in (0o600, 0o644, 0o640, 0o444):
            with self.subTest(mode=oct(mode)):
                self.path.chmod(0o600)
                with Hive.open(self.path) as hive:
                    self.path.chmod(mode)
                    hive.save()
                self.assertEqual(stat.S_IMODE(self.path.stat().st_mode), mode)

    def test_owner_and_group_are_kept(self):
        with Hive.open(self.path) as hive:
            try:
                os.chown(self.path, 12345, 23456)
            except PermissionError:
                self.skipTest("only root may give a file away")
            hive.save()
        told = self.path.stat()
        self.assertEqual((told.st_uid, told.st_gid), (12345, 23456))

    def test_a_group_that_cannot_be_kept_gets_no_rights(self):
        with Hive.open(self.path) as hive:
            try:
                os.chown(self.path, 12345, 23456)
            except PermissionError:
                self.skipTest("only root may give a file away")
            self.path.chmod(0o664)
            with mock.patch.object(os, "fchown", side_effect=PermissionError(errno.EPERM, "no")):
                hive.save()
        self.assertEqual(stat.S_IMODE(self.path.stat().st_mode), 0o604)

    def access_list(self):
        """The file's access list, by its entries: a tag, rights and a number each (acl(5))."""
        return [*struct.iter_unpack("<HHI", os.getxattr(self.path, _files._ACCESS_LIST)[4:])]

    def test_access_list_is_kept(self):
        # The owner, user 12345, the group, what all but the owner may at most, and others.
        nobody = 0xFFFFFFFF
        entries = [(1, 6, nobody), (2, 6, 12345), (4, 0, nobody), (16, 6, nobody), (32, 0, nobody)]
        try:
            os.setxattr(self.path, _files._ACCESS_LIST, struct.pack("<I", 2) + b"".join(struct.pack("<HHI", *it) for it in entries))
        except (AttributeError, OSError):
            self.skipTest("the system keeps no access lists here")
        with Hive.open(self.path) as hive:
            hive.save()
        self.assertEqual(self.access_list(), entries)
        with Hive.open(self.path) as hive, mock.patch.object(os, "setxattr", side_effect=OSError(errno.ENOSPC, "full")):
            with self.assertRaises(OSError):
                hive.save()
        self.assertEqual(self.access_list(), entries)
        os.removexattr(self.path, _files._ACCESS_LIST)
        self.path.chmod(0o640)
        # A folder may give each new file a list.
        folder = [(1, 7, nobody), (2, 7, 12345), (4, 7, nobody), (16, 7, nobody), (32, 7, nobody)]
        os.setxattr(self.folder, "system.posix_acl_default", struct.pack("<I", 2) + b"".join(struct.pack("<HHI", *it) for it in folder))
        with Hive.open(self.path) as hive:
            hive.save()
        with open(self.path, "rb") as file:
            self.assertIsNone(_files._access_list(file.fileno()))
        self.assertEqual(stat.S_IMODE(self.path.stat().st_mode), 0o640)

    def test_links_are_followed(self):
        link = self.folder / "link.hive"
        link.symlink_to("my.hive")
        with Hive.open(link) as hive:
            hive.root["Name"] = 1
            hive.save(link)
        self.assertTrue(link.is_symlink())
        with Hive.open(self.path) as hive:
            self.assertEqual(hive.root["Name"], 1)

    def test_relative_path(self):
        before = os.getcwd()
        os.chdir(self.folder)
        try:
            with Hive.open("my.hive") as hive:
                hive.save()
                hive.save("copy.hive")
        finally:
            os.chdir(before)
        self.assertEqual(self.names(), ["copy.hive", "my.hive"])

    def test_a_file_put_in_its_place(self):
        with Hive.open(self.path) as hive:
            other = self.folder / "other"
            other.write_bytes(b"other")
            os.replace(other, self.path)
            self.assertInUse(hive.save)
        self.assertEqual(self.path.read_bytes(), b"other")
        self.assertEqual(self.names(), ["my.hive"])

    def test_a_temporary_file_that_was_left(self):
        left = self.folder / "my.hive.zugmeled-0"
        left.write_bytes(b"left")
        with Hive.open(self.path) as hive:
            hive.save()
        self.assertEqual(left.read_bytes(), b"left")
        self.assertEqual(self.names(), ["my.hive", "my.hive.zugmeled-0"])

    def test_failures_leave_the_file(self):
        before = self.path.read_bytes()
        for step in ("fsync", "fchmod", "rename"):
            with self.subTest(step=step), Hive.open(self.path) as hive:
                hive.root["Name"] = 1
                with mock.patch.object(os, step, side_effect=OSError(errno.EIO, "no")):
                    self.assertRaises(OSError, hive.save)
                self.assertTrue(hive.changed)
                self.assertEqual(self.path.read_bytes(), before)
                self.assertEqual(self.names(), ["my.hive"])
                self.assertInUse(lambda: Hive.open(self.path))
        with Hive.new() as hive, mock.patch.object(os, "fsync", side_effect=OSError(errno.EIO, "no")):
            self.assertRaises(OSError, hive.save, self.folder / "new.hive")
        self.assertEqual(self.names(), ["my.hive"])

    def test_a_folder_that_is_not_synced(self):
        """The new file stands there then, and is saved again the next time."""
        with Hive.open(self.path) as hive:
            hive.root["Name"] = 1
            with mock.patch.object(_files, "_sync_folder", side_effect=OSError(errno.EIO, "no")):
                self.assertRaises(OSError, hive.save)
                self.assertRaises(OSError, hive.save, self.folder / "copy.hive")
            self.assertTrue(hive.changed)
            self.assertEqual(self.sequence(), (2, 2))
            hive.save()
            self.assertFalse(hive.changed)
            self.assertEqual(self.sequence(), (3, 3))
        self.assertEqual(self.names(), ["copy.hive", "my.hive"])
        with Hive.open(self.folder / "copy.hive") as hive:
            self.assertEqual(hive.root["Name"], 1)

    def test_ctrl_c_behind_the_rename(self):
        rename = os.rename

        def interrupted(*names):
            rename(*names)
            raise KeyboardInterrupt

        with Hive.open(self.path) as hive:
            hive.root["Name"] = 1
            with mock.patch.object(os, "rename", interrupted):
                self.assertRaises(KeyboardInterrupt, hive.save)
            self.assertInUse(lambda: Hive.open(self.path))
            hive.root["Name"] = 2
            hive.save()
        with Hive.open(self.path) as hive:
            self.assertEqual(hive.root["Name"], 2)
        self.assertEqual(self.names(), ["my.hive"])

    def test_a_killed_save_leaves_no_part(self):
        program = (
            "import os, signal, sys; from zugmeled import Hive\n"
            "os.fsync = lambda descriptor: os.kill(os.getpid(), signal.SIGKILL)\n"
            "Hive.new().save(sys.argv[1])\n"
        )
        top = Path(zugmeled.__file__).parents[1]
        new = self.folder / "new.hive"
        done = subprocess.run([sys.executable, "-c", program, str(new)], cwd=top)
        self.assertEqual(done.returncode, -signal.SIGKILL)
        self.assertFalse(new.exists())
        with Hive.new() as hive:
            hive.save(new)
        Hive.open(new).close()

    def test_a_new_file_has_the_mode_of_any(self):
        before = os.umask(0o027)
        try:
            with Hive.new() as hive:
                hive.save(self.folder / "new.hive")
        finally:
            os.umask(before)
        self.assertEqual(stat.S_IMODE((self.folder / "new.hive").stat().st_mode), 0o640)

    def test_a_file_system_without_links(self):
        new = self.folder / "new.hive"
        with Hive.new() as hive, mock.patch.object(os, "link", side_effect=PermissionError(errno.EPERM, "no")):
            with mock.patch.object(os, "rename", side_effect=OSError(errno.EIO, "no")):
                self.assertRaises(OSError, hive.save, new)
            self.assertEqual(self.names(), ["my.hive"])
            hive.save(new)
            self.assertRaises(FileExistsError, hive.save, new)
        Hive.open(new).close()
        self.assertEqual(self.names(), ["my.hive", "new.hive"])

    def test_a_file_that_comes_meanwhile_is_kept(self):
        new = self.folder / "new.hive"
        write = _files._write

        def written(descriptor, data):
            write(descriptor, data)
            new.write_bytes(b"other")

        with Hive.new() as hive:
            for links in (contextlib.nullcontext(), mock.patch.object(os, "link", side_effect=OSError(errno.EPERM, "no"))):
                with links, mock.patch.object(_files, "_write", written):
                    self.assertRaises(FileExistsError, hive.save, new)
                self.assertEqual(new.read_bytes(), b"other")
                self.assertEqual(self.names(), ["my.hive", "new.hive"])
                new.unlink()


class ThreadTest(FileTest):
    """Saves of several threads."""

    def setUp(self):
        super().setUp()
        self.hive = Hive.open(self.path)
        self.addCleanup(self.hive.close)
        self.root = self.hive.root
        self.raised = []

    def started(self, call):
        """A thread that calls, and keeps what is raised."""

        def run():
            try:
                call()
            except BaseException as why:
                self.raised.append(why)

        thread = threading.Thread(target=run, daemon=True)
        thread.start()
        return thread

    def ended(self, *threads):
        for thread in threads:
            thread.join(60)
            self.assertFalse(thread.is_alive())

    def held(self, call):
        """A thread that is held up where its save, which has the image, is to write it; and what lets it go on."""
        has_image, go_on = threading.Event(), threading.Event()
        write = _files._write

        def written(descriptor, data):
            if not has_image.is_set():
                has_image.set()
                go_on.wait(60)
            write(descriptor, data)

        patched = mock.patch.object(_files, "_write", written)
        patched.start()
        self.addCleanup(patched.stop)
        thread = self.started(call)
        self.assertTrue(has_image.wait(60))
        return thread, go_on

    def values(self):
        with Hive.open(self.path, read_only=True) as hive:
            return dict(hive.root.values())

    def test_an_older_image_never_comes_last(self):
        self.root["a"] = 1
        one, go_on = self.held(self.hive.save)
        self.root["b"] = 2
        two = self.started(self.hive.save)
        # It waits for the first. Were it to come first, this is time enough.
        two.join(0.2)
        go_on.set()
        self.ended(one, two)
        self.assertEqual(self.raised, [])
        self.assertEqual(self.values(), {"a": 1, "b": 2})
        self.assertFalse(self.hive.changed)
        self.assertEqual(self.sequence(), (3, 3))

    def test_what_comes_behind_the_image_is_not_saved(self):
        self.root["a"] = 1
        one, go_on = self.held(self.hive.save)
        # The file doesn't have it yet.
        self.assertTrue(self.hive.changed)
        self.root["b"] = 2
        go_on.set()
        self.ended(one)
        self.assertEqual(self.values(), {"a": 1})
        self.assertTrue(self.hive.changed)

    def test_many_saves(self):
        def work(name):
            for turn in range(30):
                self.root[name] = turn
                self.hive.save()

        self.ended(*[self.started(lambda name=name: work(name)) for name in ("a", "b", "c")])
        self.assertEqual(self.raised, [])
        self.assertEqual(self.values(), {"a": 29, "b": 29, "c": 29})
        self.assertFalse(self.hive.changed)
        self.assertEqual(self.sequence(), (91, 91))
        self.assertEqual(self.names(), ["my.hive"])
        self.hive.save()

    def test_close_waits_for_a_save(self):
        self.root["a"] = 1
        one, go_on = self.held(self.hive.save)
        two = self.started(self.hive.close)
        two.join(0.2)
        go_on.set()
        self.ended(one, two)
        self.assertEqual(self.raised, [])
        self.assertEqual(self.values(), {"a": 1})
        Hive.open(self.path).close()
        with self.assertRaises(zugmeled.Error) as raised:
            self.hive.save()
        self.assertEqual(raised.exception.winerror, 6)

    def test_no_change_between_a_save_and_the_close(self):
        self.root["a"] = 1
        one, go_on = self.held(lambda: self.hive.close(save=True))
        two = self.started(lambda: self.root.set("b", 4, bytes(4)))
        two.join(0.2)
        go_on.set()
        self.ended(one, two)
        self.assertEqual([why.winerror for why in self.raised], [6])
        self.assertEqual(self.values(), {"a": 1})
        self.hive.close(save=True)

    def test_where_the_save_fails_the_hive_stays_open(self):
        self.root["a"] = 1
        with mock.patch.object(os, "rename", side_effect=OSError(errno.EIO, "no")):
            one, go_on = self.held(lambda: self.hive.close(save=True))
            two = self.started(lambda: self.root.set("b", 4, bytes(4)))
            go_on.set()
            self.ended(one, two)
        self.assertEqual([why.errno for why in self.raised], [errno.EIO])
        self.hive.close(save=True)
        self.assertEqual(self.values(), {"a": 1, "b": 0})

    def test_close_saves_what_changed_alone(self):
        before = self.path.stat().st_ino
        self.hive.close(save=True)
        self.assertEqual(self.path.stat().st_ino, before)
        with Hive.new() as hive:
            hive.root["a"] = 1
            hive.close(save=True)


class EndTest(FileTest):
    def test_ends_without_closing(self):
        """A program that ends with all open has nothing to say on standard error."""
        program = (
            "import sys; from zugmeled import Hive, winreg\n"
            "hive = Hive.open(sys.argv[1]); key = hive.root.create('A')\n"
            "winreg.mount(winreg.HKEY_USERS); opened = winreg.CreateKey(winreg.HKEY_USERS, 'A')\n"
        )
        top = Path(zugmeled.__file__).parents[1]
        done = subprocess.run([sys.executable, "-c", program, str(self.path)], cwd=top, capture_output=True, text=True)
        self.assertEqual((done.returncode, done.stdout, done.stderr), (0, "", ""))


if __name__ == "__main__":
    unittest.main()
