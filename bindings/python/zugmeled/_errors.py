"""Statuses of the registry as exceptions."""

import errno
import functools
from typing import Any, Callable, Optional, Tuple, TypeVar, cast

from . import _library as c

# Statuses that no call of the library answers, but a function of this package.
INVALID_DATA = 13
WRITE_PROTECTED = 19
GENERAL_FAILURE = 31
SHARING_VIOLATION = 32
BAD_NETWORK_PATH = 53
DISK_FULL = 112
BAD_PATH = 161

_WORDS = {
    c.FILE_NOT_FOUND: "there is no such key or value",
    c.ACCESS_DENIED: "access is denied",
    c.INVALID_HANDLE: "the handle is invalid",
    c.NOT_ENOUGH_MEMORY: "memory was refused",
    INVALID_DATA: "the data is invalid",
    SHARING_VIOLATION: "somebody else edits the file, or just saved it",
    BAD_NETWORK_PATH: "the network path was not found",
    c.INVALID_PARAMETER: "a parameter is invalid",
    c.INSUFFICIENT_BUFFER: "the room is too short",
    BAD_PATH: "the path is invalid",
    c.BUSY: "keys are open",
    c.ALREADY_EXISTS: "it exists already",
    c.MORE_DATA: "more data is there",
    c.NO_MORE_ITEMS: "no more items are there",
    c.NOT_REGISTRY_FILE: "it is no hive that is read",
    c.KEY_DELETED: "the key was deleted",
    c.NO_SYSTEM_RESOURCES: "a limit of the registry was met",
}

#: What a load's fault says, by its number.
_FAULTS = {
    2: "too short",
    3: "signature",
    4: "version",
    5: "checksum",
    6: "not written to its end",
    7: "a bin",
    8: "a cell",
    9: "a record",
    10: "a key below itself",
    11: "a cell or a name twice",
    12: "something that isn't supported",
    13: "a limit",
}

# The errno that Python has for a status on Windows; EINVAL for all others.
_ERRNO = {
    c.FILE_NOT_FOUND: errno.ENOENT,
    c.ACCESS_DENIED: errno.EACCES,
    c.INVALID_HANDLE: errno.EBADF,
    c.NOT_ENOUGH_MEMORY: errno.ENOMEM,
    SHARING_VIOLATION: errno.EAGAIN,
    BAD_NETWORK_PATH: errno.ENOENT,
    BAD_PATH: errno.ENOENT,
    c.ALREADY_EXISTS: errno.EEXIST,
}


# The status for an errno of the system, where it has one of its own.
_STATUS = {
    errno.ENOENT: c.FILE_NOT_FOUND,
    errno.EACCES: c.ACCESS_DENIED,
    errno.EPERM: c.ACCESS_DENIED,
    errno.EISDIR: c.ACCESS_DENIED,
    errno.EROFS: WRITE_PROTECTED,
    errno.EEXIST: c.ALREADY_EXISTS,
    errno.ENOSPC: DISK_FULL,
}

_Function = TypeVar("_Function", bound=Callable[..., Any])


class Error(OSError):
    """A call was refused. `winerror` is the status, a number of Win32; `fault` the number of a load's fault, else None."""

    def __init__(self, status: int, words: str, fault: Optional[int] = None) -> None:
        super().__init__(_ERRNO.get(status, errno.EINVAL), words)
        self.winerror = status
        self.fault = fault

    def __str__(self) -> str:
        return f"[WinError {self.winerror}] {self.strerror}"

    def __reduce__(self) -> Tuple[Any, ...]:
        return type(self), (self.winerror, self.strerror, self.fault)


class NotFound(Error, FileNotFoundError):
    """There is no such key or value."""


class Denied(Error, PermissionError):
    """The key lacks a right, or may not be changed or deleted."""


class Exists(Error, FileExistsError):
    """Something has that name already."""


class InUse(Error, BlockingIOError):
    """Somebody else edits the file, or just saved it."""


_CLASSES = {
    errno.ENOENT: NotFound,
    errno.EACCES: Denied,
    errno.EEXIST: Exists,
    errno.EAGAIN: InUse,
}


def error(status: int, words: Optional[str] = None) -> Error:
    """The exception of a status, with the status's own words where none are given."""
    kind = _CLASSES.get(_ERRNO.get(status, errno.EINVAL), Error)
    return kind(status, words or _WORDS.get(status, "the call was refused"))


def load_error(status: int, fault: int) -> Error:
    """The exception of a load that was refused."""
    if status != c.NOT_REGISTRY_FILE:
        return error(status)
    return Error(status, f"{_WORDS[status]}: fault {fault}, {_FAULTS.get(fault, 'unknown')}", fault)


def with_winerror(function: _Function) -> _Function:
    """Has the system's own errors leave a function with a `winerror`, which Python gives them on Windows alone."""

    @functools.wraps(function)
    def wrapped(*arguments: Any, **named: Any) -> Any:
        try:
            return function(*arguments, **named)
        except OSError as raised:
            if getattr(raised, "winerror", None) is None:
                raised.winerror = _STATUS.get(raised.errno or 0, GENERAL_FAILURE)
            raise

    return cast(_Function, wrapped)
