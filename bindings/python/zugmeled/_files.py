"""Hive files: locked while they are edited, and written whole or not at all.

The lock is the system's advisory one (`flock`), by which regtool keeps its files too.
"""

import errno
import fcntl
import os
import stat
from typing import Optional, Tuple, Union

from ._errors import SHARING_VIOLATION, error, with_winerror

Path = Union[str, "os.PathLike[str]"]

# The bits of a mode by which a program that is run has its file's owner or group, and those that are a group's.
_RUNNER_BITS = stat.S_ISUID | stat.S_ISGID
_GROUP_BITS = stat.S_IRWXG

# Where Linux keeps a file's access list. With one the group's bits of the mode say what each on the list may do at most.
_ACCESS_LIST = "system.posix_acl_access"

# The mode of a file that its owner alone may open, and that of one that is made, less what the program takes from all it makes.
_OWN_MODE = 0o600
_MADE_MODE = 0o666


@with_winerror
def read(path: Path) -> bytes:
    """The bytes of a file, without its lock."""
    with open(path, "rb") as file:
        return file.read()


@with_winerror
def make(path: Path, data: bytes) -> None:
    """Makes a file, anew: FileExistsError where one is there.

    It is written under another name, so that no part of it is found at its path, even where the program is killed. After a fault nothing is
    there. Only where the folder couldn't be synced the whole file stands there.
    """
    place = os.fspath(path)
    # What decides is the move. This saves the writing, and comes before what else is refused.
    if os.path.lexists(place):
        raise FileExistsError(errno.EEXIST, os.strerror(errno.EEXIST), place)
    descriptor, name = _create_beside(place, _MADE_MODE)
    try:
        try:
            _write(descriptor, data)
        finally:
            os.close(descriptor)
        _move_to_free(name, place)
    except BaseException:
        _remove(name)
        raise
    _sync_folder(place)


class HeldFile:
    """A file that is open and locked, so that one at a time edits it, until it is closed."""

    @with_winerror
    def __init__(self, path: Path) -> None:
        """Opens a file and takes its lock. InUse where somebody else has it, or just saved the file."""
        # Links are followed now, so that a save replaces the file and no link to it.
        self.path = os.path.realpath(path)
        self._process = os.getpid()
        self._descriptor = os.open(self.path, os.O_RDWR | os.O_CLOEXEC)
        try:
            _lock(self._descriptor)
            self._check()
        except BaseException:
            self.close()
            raise

    @with_winerror
    def read(self) -> bytes:
        """The bytes of the file."""
        with os.fdopen(os.dup(self._descriptor), "rb") as file:
            file.seek(0)
            return file.read()

    def is_at(self, path: Path) -> bool:
        """Whether a path leads to this file."""
        return os.path.realpath(path) == self.path

    @with_winerror
    def replace(self, data: bytes) -> None:
        """Puts other bytes in the file's place, with its owner, group, permissions and access list. After a fault the file is as it was."""
        self._check()
        # Nobody but its owner may open it before it has the rights of the other.
        descriptor, name = _create_beside(self.path, _OWN_MODE)
        try:
            # The lock is taken before the name is, so that nobody comes between two saves.
            _lock(descriptor)
            _permit(descriptor, self._descriptor)
            _write(descriptor, data)
            os.rename(name, self.path)
        except BaseException:
            # A signal may have come right behind the rename.
            if self._stands(descriptor):
                self._hold(descriptor)
            else:
                os.close(descriptor)
                _remove(name)
            raise
        self._hold(descriptor)

    @with_winerror
    def sync_folder(self) -> None:
        """Has the system keep that a file was put in the other's place."""
        _sync_folder(self.path)

    def close(self) -> None:
        """Gives up the lock. A second time nothing happens."""
        # A child of this process has the descriptor too, and with it the lock; and it is no child that gives up its parent's.
        if self._descriptor >= 0 and self._process == os.getpid():
            fcntl.flock(self._descriptor, fcntl.LOCK_UN)
        self._hold(-1)

    def _hold(self, descriptor: int) -> None:
        """Takes over another descriptor, and closes the one before. That is let go first, so that it is never closed twice."""
        before, self._descriptor = self._descriptor, descriptor
        if before >= 0:
            os.close(before)

    def _stands(self, descriptor: int) -> bool:
        """Whether a file that is open is the one at the path."""
        try:
            return os.path.samestat(os.fstat(descriptor), os.stat(self.path))
        except OSError:
            return False

    def _check(self) -> None:
        """Tests that the file is a regular one, and that no other took its place since it was opened."""
        own = os.fstat(self._descriptor)
        if not stat.S_ISREG(own.st_mode):
            raise OSError(errno.EINVAL, "it is no regular file", self.path)
        if not os.path.samestat(own, os.stat(self.path)):
            raise error(SHARING_VIOLATION)


def _lock(descriptor: int) -> None:
    try:
        fcntl.flock(descriptor, fcntl.LOCK_EX | fcntl.LOCK_NB)
    except BlockingIOError:
        raise error(SHARING_VIOLATION) from None


def _move_to_free(name: str, path: str) -> None:
    """Moves a file to a path where nothing is."""
    try:
        os.link(name, path)
    except FileExistsError:
        raise
    except OSError:
        # Some file systems have no hard links.
        _move_over_empty(name, path)
    else:
        # The file stands where it should, also if it keeps the other name.
        _remove(name)


def _move_over_empty(name: str, path: str) -> None:
    """The same without a link: an empty file takes the path, and the other one its place.

    A program that is killed between the two leaves the empty one.
    """
    os.close(os.open(path, os.O_WRONLY | os.O_CREAT | os.O_EXCL | os.O_CLOEXEC, _OWN_MODE))
    try:
        os.rename(name, path)
    except BaseException:
        _remove(path)
        raise


def _remove(name: str) -> None:
    """Removes a file that is of no more use, if it can be: what is reported is what came before."""
    try:
        os.unlink(name)
    except OSError:
        pass


def _create_beside(path: str, mode: int) -> Tuple[int, str]:
    """Makes a file beside a path, anew, with a mode: its descriptor and its name."""
    number = 0
    while True:
        name = f"{path}.zugmeled-{number}"
        try:
            return os.open(name, os.O_WRONLY | os.O_CREAT | os.O_EXCL | os.O_CLOEXEC, mode), name
        except FileExistsError:
            # Whoever left it: it isn't ours to write over.
            number += 1


def _permit(descriptor: int, standing: int) -> None:
    """Gives a new file what another one has: its owner and group, as far as the system allows it, its permissions, and its access list."""
    state = os.fstat(standing)
    others = _give_owner(descriptor, state)
    listed = _access_list(standing)
    if listed is None:
        _unlist(descriptor)
        os.fchmod(descriptor, stat.S_IMODE(state.st_mode) & ~others)
        return
    # Until the list stands, the group's bits would give the group what is another's.
    os.fchmod(descriptor, stat.S_IMODE(state.st_mode) & ~(others | _GROUP_BITS))
    if not others & _GROUP_BITS:
        os.setxattr(descriptor, _ACCESS_LIST, listed)


def _access_list(descriptor: int) -> Optional[bytes]:
    """A file's access list, where it has one and the system keeps such."""
    try:
        return os.getxattr(descriptor, _ACCESS_LIST)
    except (AttributeError, OSError):
        return None


def _unlist(descriptor: int) -> None:
    """Takes the access list off a new file that its folder gave it, where it has one."""
    try:
        os.removexattr(descriptor, _ACCESS_LIST)
    except (AttributeError, OSError):
        pass


def _give_owner(descriptor: int, standing: os.stat_result) -> int:
    """Gives a file an owner and a group. The answer are the bits of the mode that would give rights to somebody else."""
    own = os.fstat(descriptor)
    if (own.st_uid, own.st_gid) == (standing.st_uid, standing.st_gid):
        return 0
    try:
        os.fchown(descriptor, standing.st_uid, standing.st_gid)
        return 0
    except OSError:
        pass
    try:
        os.fchown(descriptor, -1, standing.st_gid)
        return _RUNNER_BITS
    except OSError:
        return _RUNNER_BITS | _GROUP_BITS


def _write(descriptor: int, data: bytes) -> None:
    """Writes bytes, and has the system keep them."""
    with os.fdopen(os.dup(descriptor), "wb") as file:
        file.write(data)
    os.fsync(descriptor)


def _sync_folder(path: str) -> None:
    """Has the system keep the names in the folder of a path."""
    folder = os.open(os.path.dirname(path) or ".", os.O_RDONLY | os.O_CLOEXEC)
    try:
        os.fsync(folder)
    finally:
        os.close(folder)
