"""The standard module winreg on Unix, over hive files.

    from zugmeled import winreg

    with winreg.mount(winreg.HKEY_LOCAL_MACHINE, "SOFTWARE", "SOFTWARE.hive"):
        with winreg.CreateKey(winreg.HKEY_LOCAL_MACHINE, r"SOFTWARE\\Zug") as key:
            winreg.SetValueEx(key, "Version", 0, winreg.REG_DWORD, 4)

Functions, constants, conversions, errors and audit events are those of the standard module. Its roots are here what `mount` puts there.
Instead of hives that Windows has open there are files, which are saved by `FlushKey`, by `unmount`, or at the end of the block above.
"""

import itertools
import os
import sys
from contextlib import contextmanager
from types import TracebackType
from typing import Any, Dict, Iterator, List, NamedTuple, Optional, Tuple, Type, Union

from . import _files
from . import _library as _c
from ._errors import BAD_NETWORK_PATH, BAD_PATH, INVALID_DATA, Error
from ._errors import error as _error
from ._hive import Hive, Key
from ._values import (
    REG_BINARY,
    REG_DWORD,
    REG_DWORD_BIG_ENDIAN,
    REG_EXPAND_SZ,
    REG_FULL_RESOURCE_DESCRIPTOR,
    REG_LINK,
    REG_MULTI_SZ,
    REG_NONE,
    REG_QWORD,
    REG_RESOURCE_LIST,
    REG_RESOURCE_REQUIREMENTS_LIST,
    REG_SZ,
    Value,
    from_data,
    to_data,
)

__all__ = [
    "CloseKey",
    "ConnectRegistry",
    "CreateKey",
    "CreateKeyEx",
    "DeleteKey",
    "DeleteKeyEx",
    "DeleteValue",
    "DisableReflectionKey",
    "EnableReflectionKey",
    "EnumKey",
    "EnumValue",
    "ExpandEnvironmentStrings",
    "FlushKey",
    "HKEYType",
    "HKEY_CLASSES_ROOT",
    "HKEY_CURRENT_CONFIG",
    "HKEY_CURRENT_USER",
    "HKEY_DYN_DATA",
    "HKEY_LOCAL_MACHINE",
    "HKEY_PERFORMANCE_DATA",
    "HKEY_USERS",
    "KEY_ALL_ACCESS",
    "KEY_CREATE_LINK",
    "KEY_CREATE_SUB_KEY",
    "KEY_ENUMERATE_SUB_KEYS",
    "KEY_EXECUTE",
    "KEY_NOTIFY",
    "KEY_QUERY_VALUE",
    "KEY_READ",
    "KEY_SET_VALUE",
    "KEY_WOW64_32KEY",
    "KEY_WOW64_64KEY",
    "KEY_WRITE",
    "LoadKey",
    "Mount",
    "OpenKey",
    "OpenKeyEx",
    "QueryInfoKey",
    "QueryReflectionKey",
    "QueryValue",
    "QueryValueEx",
    "REG_BINARY",
    "REG_CREATED_NEW_KEY",
    "REG_DWORD",
    "REG_DWORD_BIG_ENDIAN",
    "REG_DWORD_LITTLE_ENDIAN",
    "REG_EXPAND_SZ",
    "REG_FULL_RESOURCE_DESCRIPTOR",
    "REG_LEGAL_CHANGE_FILTER",
    "REG_LEGAL_OPTION",
    "REG_LINK",
    "REG_MULTI_SZ",
    "REG_NONE",
    "REG_NOTIFY_CHANGE_ATTRIBUTES",
    "REG_NOTIFY_CHANGE_LAST_SET",
    "REG_NOTIFY_CHANGE_NAME",
    "REG_NOTIFY_CHANGE_SECURITY",
    "REG_NO_LAZY_FLUSH",
    "REG_OPENED_EXISTING_KEY",
    "REG_OPTION_BACKUP_RESTORE",
    "REG_OPTION_CREATE_LINK",
    "REG_OPTION_NON_VOLATILE",
    "REG_OPTION_OPEN_LINK",
    "REG_OPTION_RESERVED",
    "REG_OPTION_VOLATILE",
    "REG_QWORD",
    "REG_QWORD_LITTLE_ENDIAN",
    "REG_REFRESH_HIVE",
    "REG_RESOURCE_LIST",
    "REG_RESOURCE_REQUIREMENTS_LIST",
    "REG_SZ",
    "REG_WHOLE_HIVE_VOLATILE",
    "SaveKey",
    "SetValue",
    "SetValueEx",
    "error",
    "mount",
    "unmount",
]

error = OSError

# The roots, with the numbers that they have in a 64-bit Python on Windows.
HKEY_CLASSES_ROOT = 0xFFFFFFFF80000000
HKEY_CURRENT_USER = 0xFFFFFFFF80000001
HKEY_LOCAL_MACHINE = 0xFFFFFFFF80000002
HKEY_USERS = 0xFFFFFFFF80000003
HKEY_PERFORMANCE_DATA = 0xFFFFFFFF80000004
HKEY_CURRENT_CONFIG = 0xFFFFFFFF80000005
HKEY_DYN_DATA = 0xFFFFFFFF80000006

KEY_QUERY_VALUE = 0x1
KEY_SET_VALUE = 0x2
KEY_CREATE_SUB_KEY = 0x4
KEY_ENUMERATE_SUB_KEYS = 0x8
KEY_NOTIFY = 0x10
KEY_CREATE_LINK = 0x20
KEY_WOW64_64KEY = 0x100
KEY_WOW64_32KEY = 0x200
KEY_WRITE = 0x20006
KEY_READ = 0x20019
KEY_EXECUTE = 0x20019
KEY_ALL_ACCESS = 0xF003F

REG_DWORD_LITTLE_ENDIAN = REG_DWORD
REG_QWORD_LITTLE_ENDIAN = REG_QWORD

# These the standard module has too, though its documentation doesn't tell them.
REG_CREATED_NEW_KEY = 1
REG_OPENED_EXISTING_KEY = 2
REG_NOTIFY_CHANGE_NAME = 1
REG_NOTIFY_CHANGE_ATTRIBUTES = 2
REG_NOTIFY_CHANGE_LAST_SET = 4
REG_NOTIFY_CHANGE_SECURITY = 8
REG_LEGAL_CHANGE_FILTER = 0x1000000F
REG_OPTION_RESERVED = 0
REG_OPTION_NON_VOLATILE = 0
REG_OPTION_VOLATILE = 1
REG_OPTION_CREATE_LINK = 2
REG_OPTION_BACKUP_RESTORE = 4
REG_OPTION_OPEN_LINK = 8
REG_LEGAL_OPTION = 31
REG_WHOLE_HIVE_VOLATILE = 1
REG_REFRESH_HIVE = 2
REG_NO_LAZY_FLUSH = 4

# Bits of a mask that stand for others: GENERIC_READ, GENERIC_WRITE, GENERIC_EXECUTE, GENERIC_ALL and MAXIMUM_ALLOWED. Here a descriptor
# keeps nobody out, so the most that is allowed is all.
_STANDS_FOR = {
    0x80000000: KEY_READ,
    0x40000000: KEY_WRITE,
    0x20000000: KEY_EXECUTE,
    0x10000000: KEY_ALL_ACCESS,
    0x02000000: KEY_ALL_ACCESS,
}

# The names of a path from a root, folded, so that those of one key are equal.
_Folded = Tuple[bytes, ...]

# What is open, by the handle's number. As on Windows these are multiples of 4. None is used twice, and none is a root's.
_opened: "Dict[int, _Opened]" = {}
_numbers = itertools.count(4, 4)


class Mount:
    """A hive that stands at a path below a root. As a context manager it is unmounted, and saved if nothing was raised."""

    def __init__(self, root: int, names: Tuple[str, ...], hive: Hive, writable: bool) -> None:
        self.hive = hive
        self._root = root
        self._names = names
        self._folded = _fold(names)
        self._writable = writable

    def flush(self) -> None:
        """Saves the hive to its file, if it has one and may have changed."""
        if self.hive.path and self.hive.changed:
            self.hive.save()

    def unmount(self, save: bool = True) -> None:
        """Takes the hive out, and saves it unless told not to. Keys that are open in it answer 6 from then on.

        So do changes that other threads make meanwhile, where they came too late to be saved. Where the save fails all stays mounted.
        """
        self.hive.close(save=save)
        mounts = _mounts[self._root]
        if mounts.get(self._folded) is self:
            mounts.pop(self._folded, None)

    def __enter__(self) -> "Mount":
        return self

    def __exit__(self, kind: Optional[Type[BaseException]], raised: Optional[BaseException], where: Optional[TracebackType]) -> None:
        self.unmount(save=kind is None)


class _Immutable(type):
    """The kind of a class whose attributes stay as they are, as those of a class that is written in C do."""

    def __setattr__(cls, name: str, value: Any) -> None:
        raise TypeError(f"cannot set '{name}' attribute of immutable type '{cls.__name__}'")

    def __delattr__(cls, name: str) -> None:
        raise TypeError(f"cannot delete '{name}' attribute of immutable type '{cls.__name__}'")


class PyHKEY(metaclass=_Immutable):
    """A key that is open. It closes by itself when nothing refers to it any more."""

    _handle = 0

    def __init__(self, handle: int) -> None:
        """For this module: takes over a handle's number."""
        self._handle = handle

    @property
    def handle(self) -> int:
        """The handle's number, 0 where it is closed or detached."""
        return self._handle

    def Close(self) -> None:
        """Closes the key. Where it is closed already nothing happens."""
        _close(self._let_go())

    def Detach(self) -> int:
        """Gives the handle's number away: the key stays open, and is closed by `CloseKey` of that number."""
        _audit("PyHKEY.Detach", self)
        return self._let_go()

    def _let_go(self) -> int:
        handle, self._handle = self._handle, 0
        return handle

    def __int__(self) -> int:
        return self._handle

    def __bool__(self) -> bool:
        return self._handle != 0

    def __eq__(self, other: object) -> bool:
        if isinstance(other, HKEYType):
            return self._handle == other._handle
        return NotImplemented

    # The number changes when the key is closed, so a hash of it would lose a key in a set.
    __hash__ = object.__hash__

    def __enter__(self) -> "HKEYType":
        return self

    def __exit__(self, kind: Optional[Type[BaseException]], raised: Optional[BaseException], where: Optional[TracebackType]) -> None:
        self.Close()

    def __del__(self) -> None:
        # The key object in the table closes in its turn.
        _opened.pop(self._handle, None)

    def __str__(self) -> str:
        return f"<PyHKEY:0x{self._handle:016X}>"


HKEYType = PyHKEY

_KeyType = Union[HKEYType, int]


class _Opened(NamedTuple):
    """What a handle's number stands for: a key of a mount's hive, and the names of its path from the root."""

    mount: Mount
    key: Key
    names: Tuple[str, ...]


class _Place(NamedTuple):
    """Where a call goes: the mount, the key from which a path leads on, that path, and all names of it from the root."""

    mount: Mount
    key: Key
    path: str
    names: Tuple[str, ...]


# What is mounted below each root, by the folded path.
_mounts: Dict[int, Dict[_Folded, Mount]] = {root: {} for root in range(HKEY_CLASSES_ROOT, HKEY_DYN_DATA + 1)}

# An empty hive for each root where nothing is mounted at the root itself.
_bare: Dict[int, Mount] = {}


def mount(
    root: int,
    path: str = "",
    file: Optional[_files.Path] = None,
    *,
    create: bool = False,
    read_only: bool = False,
) -> Mount:
    """Puts the hive of a file at a path below a root; the empty path is the root itself.

    The key above the path has to be there. The file stays locked until `unmount`; with `create` it is made if it is missing, and with
    `read_only` it isn't locked, and changes are refused with 5. Without a file the hive is a new one, in memory alone.
    FileExistsError where something is mounted there.
    """
    return _mount_at(_root(root), _names(path), file, create, read_only)


def unmount(root: int, path: str = "", *, save: bool = True) -> None:
    """Saves what is mounted at a path below a root, if it may have changed, and takes it out. FileNotFoundError where nothing is."""
    found = _mounts[_root(root)].get(_fold(_names(path)))
    if not found:
        raise _error(_c.FILE_NOT_FOUND)
    found.unmount(save)


def CloseKey(hkey: Optional[_KeyType], /) -> None:
    """Closes a key that is open. Nothing happens to a root, nor to an object whose key is closed already."""
    if isinstance(hkey, HKEYType):
        hkey.Close()
    elif hkey is not None:
        _close(_key_number(hkey))


def ConnectRegistry(computer_name: Optional[str], key: _KeyType, /) -> HKEYType:
    """Opens a root. Only this computer is reached: FileNotFoundError for any other."""
    computer = _text(computer_name, "ConnectRegistry", "computer_name")
    sys.audit("winreg.ConnectRegistry", computer_name, _signed(key))
    if computer:
        raise _error(BAD_NETWORK_PATH)
    return _open(_place(_root(_key_number(key)), ""), KEY_ALL_ACCESS)


def CreateKey(key: _KeyType, sub_key: Optional[str], /) -> HKEYType:
    """Opens a key with all rights, and makes what is missing of its path. Of a root and None it is that root's own handle."""
    path = _text(sub_key, "CreateKey", "sub_key")
    # The standard module tells this mask, though the key has all rights.
    _audit("CreateKey", key, sub_key, KEY_WRITE)
    return _audited(_root_itself(key, sub_key) or _create(_place(key, path), KEY_ALL_ACCESS))


def CreateKeyEx(key: _KeyType, sub_key: Optional[str], reserved: int = 0, access: int = KEY_WRITE) -> HKEYType:
    """Opens a key with the rights of a mask, and makes what is missing of its path. Of a root and None it is that root's own handle."""
    path = _text(sub_key, "CreateKeyEx", "sub_key")
    _audit("CreateKey", key, sub_key, access)
    return _audited(_root_itself(key, sub_key) or _create(_place(key, path), access))


def DeleteKey(key: _KeyType, sub_key: str, /) -> None:
    """Deletes a key that has no subkeys, with its values."""
    path = _text(sub_key, "DeleteKey", "sub_key", needed=True)
    _audit("DeleteKey", key, sub_key, 0)
    _delete(key, path)


def DeleteKeyEx(key: _KeyType, sub_key: str, access: int = KEY_WOW64_64KEY, reserved: int = 0) -> None:
    """Deletes a key that has no subkeys, with its values. There is one view of the registry, whatever the mask says."""
    path = _text(sub_key, "DeleteKeyEx", "sub_key", needed=True)
    _audit("DeleteKey", key, sub_key, access)
    _delete(key, path)


def DeleteValue(key: _KeyType, value: Optional[str], /) -> None:
    """Deletes a value of a key."""
    name = _text(value, "DeleteValue", "value")
    _audit("DeleteValue", key, value)
    with _looked_for(name):
        _to_change(_place(key, "")).key.delete_value(name)


def EnumKey(key: _KeyType, index: int, /) -> str:
    """The name of the subkey at an index. OSError past the last."""
    at = _index(index)
    _audit("EnumKey", key, index)
    opened = _opened_of(key)
    mounted = _mounted_below(opened)
    if not mounted:
        return opened.key.subkey_at(at)[0]
    names = opened.key.subkeys() + mounted
    if at >= len(names):
        raise _error(_c.NO_MORE_ITEMS)
    return names[at]


def EnumValue(key: _KeyType, index: int, /) -> Tuple[str, Value, int]:
    """The name, the data and the type of the value at an index. OSError past the last."""
    at = _index(index)
    _audit("EnumValue", key, index)
    name, kind, data = _opened_of(key).key.value_at(at)
    return name, from_data(data, kind), kind


def ExpandEnvironmentStrings(string: str, /) -> str:
    """Puts the values of environment variables in the place of their names, as in %PATH%. Others stay as they are."""
    text = _text(string, "ExpandEnvironmentStrings", "string", needed=True)
    sys.audit("winreg.ExpandEnvironmentStrings", string)
    first, *parts = text.split("%")
    expanded = [first]
    at = 0
    while at < len(parts):
        # The last part has no % behind it, so it names nothing.
        value = _variable(parts[at]) if at + 1 < len(parts) else None
        if value is None:
            expanded.append("%" + parts[at])
            at += 1
        else:
            expanded.append(value + parts[at + 1])
            at += 2
    return "".join(expanded)


def FlushKey(key: _KeyType, /) -> None:
    """Saves the hive of a key to its file, if it may have changed."""
    _opened_of(key).mount.flush()


def LoadKey(key: _KeyType, sub_key: str, file_name: str, /) -> None:
    """Mounts the hive of a file at a subkey, as `mount` does."""
    path = _text(sub_key, "LoadKey", "sub_key", needed=True)
    file = _text(file_name, "LoadKey", "file_name", needed=True)
    _audit("LoadKey", key, sub_key, file_name)
    place = _place(key, path)
    _mount_at(place.mount._root, place.names, file, False, False)


def OpenKey(key: _KeyType, sub_key: Optional[str], reserved: int = 0, access: int = KEY_READ) -> HKEYType:
    """Opens a key with the rights of a mask."""
    path = _text(sub_key, "OpenKey", "sub_key")
    _audit("OpenKey", key, sub_key, access)
    with _looked_for(path):
        return _audited(_open(_place(key, path), access))


def OpenKeyEx(key: _KeyType, sub_key: Optional[str], reserved: int = 0, access: int = KEY_READ) -> HKEYType:
    """Opens a key with the rights of a mask."""
    path = _text(sub_key, "OpenKeyEx", "sub_key")
    _audit("OpenKey", key, sub_key, access)
    with _looked_for(path):
        return _audited(_open(_place(key, path), access))


def QueryInfoKey(key: _KeyType, /) -> Tuple[int, int, int]:
    """How many subkeys and values a key has, and when it was last written, in units of 100 ns since 1601."""
    _audit("QueryInfoKey", key)
    opened = _opened_of(key)
    info = opened.key.info
    return info.subkeys + len(_mounted_below(opened)), info.values, info.time


def QueryValue(key: _KeyType, sub_key: Optional[str], /) -> str:
    """The text of a key's default value; the empty text where it has none. OSError where the value is of another type than REG_SZ."""
    path = _text(sub_key, "QueryValue", "sub_key")
    _audit("QueryValue", key, sub_key, None)
    if not path:
        return _default_text(key)
    with _looked_for(path), _open(_place(key, path), KEY_QUERY_VALUE) as opened:
        return _default_text(opened)


def QueryValueEx(key: _KeyType, name: Optional[str], /) -> Tuple[Value, int]:
    """The data and the type of a value."""
    text = _text(name, "QueryValueEx", "name")
    _audit("QueryValue", key, None, name)
    with _looked_for(text):
        kind, data = _opened_of(key).key.value(text)
    return from_data(data, kind), kind


def SaveKey(key: _KeyType, file_name: str, /) -> None:
    """Makes a file with a key and all that is below it. FileExistsError where one is there.

    Of a mount's root it is the image of its hive. Of another key it is that of a copy, which has no classes of keys, nor the marks by which
    some may not be deleted. What is mounted below a key isn't part of either.
    """
    file = _text(file_name, "SaveKey", "file_name", needed=True)
    _audit("SaveKey", key, file_name)
    opened = _opened_of(key)
    if _fold(opened.names) == opened.mount._folded:
        _files.make(file, opened.mount.hive.image())
        return
    with Hive.copy_of(opened.key) as copied:
        copied.save(file)


def SetValue(key: _KeyType, sub_key: Optional[str], type: int, value: str, /) -> None:
    """Sets the default value of a key to a text, and makes what is missing of the key's path. The type is REG_SZ."""
    if type != REG_SZ:
        raise TypeError("type must be winreg.REG_SZ")
    path = _text(sub_key, "SetValue", "sub_key")
    if not isinstance(value, str):
        raise TypeError(f"SetValue() argument 'value' must be str, not {_type_name(value)}")
    data = to_data(value, REG_SZ)
    _audit("SetValue", key, sub_key, type, value)
    if path:
        with _create(_place(key, path), KEY_SET_VALUE) as opened:
            _set(opened, "", REG_SZ, data)
    else:
        _set(key, "", REG_SZ, data)


def SetValueEx(key: _KeyType, value_name: Optional[str], reserved: Any, type: int, value: Any, /) -> None:
    """Sets a value to a type, and to data that is made of an object as that type has it."""
    name = _text(value_name, "SetValueEx", "value_name")
    kind = _kind(type)
    data = to_data(value, kind)
    _audit("SetValue", key, value_name, type, value)
    _set(key, name, kind, data)


def DisableReflectionKey(key: _KeyType, /) -> None:
    """Does nothing: there is no view for 32 bits to which a key could be reflected."""
    _audit("DisableReflectionKey", key)
    _opened_of(key)


def EnableReflectionKey(key: _KeyType, /) -> None:
    """Does nothing, as `DisableReflectionKey`."""
    _audit("EnableReflectionKey", key)
    _opened_of(key)


def QueryReflectionKey(key: _KeyType, /) -> bool:
    """Whether reflection is off for a key, which it always is."""
    _audit("QueryReflectionKey", key)
    _opened_of(key)
    return True


def _audit(event: str, key: Any, *arguments: Any) -> None:
    """Tells the hooks of `sys.addaudithook` of a call on a key, by the names and arguments that the standard module documents."""
    sys.audit(f"winreg.{event}", _signed(key), *arguments)


def _audited(opened: HKEYType) -> HKEYType:
    """The same of a key that a call opened."""
    _audit("OpenKey/result", opened)
    return opened


def _signed(key: Any) -> int:
    """A key's number as the standard module's events have it: signed, so that the roots' are negative."""
    number = _key_number(key)
    return number - (1 << 64) if number >> 63 else number


def _fold(names: Tuple[str, ...]) -> _Folded:
    # bytes.upper folds a to z alone, as the registry does.
    return tuple(name.encode("utf-8", "surrogatepass").upper() for name in names)


def _names(path: str) -> Tuple[str, ...]:
    """The names of a path. As Windows does it passes over a backslash too many, but for one at the front."""
    if path.startswith("\\"):
        raise _error(BAD_PATH)
    return tuple(name for name in path.split("\\") if name)


def _type_name(value: Any) -> str:
    return "None" if value is None else type(value).__name__


def _text(value: Any, function: str, argument: str, needed: bool = False) -> str:
    """An argument that is a text, or None, which is the empty one unless a text is needed."""
    if value is None and not needed:
        return ""
    if not isinstance(value, str):
        expected = "str" if needed else "str or None"
        raise TypeError(f"{function}() argument '{argument}' must be {expected}, not {_type_name(value)}")
    if "\0" in value:
        raise ValueError("embedded null character")
    return value


def _index(index: int) -> int:
    if not -(1 << 31) <= index < 1 << 31:
        raise OverflowError("Python int too large to convert to C int")
    # A negative one is past the last, as Windows sees it.
    return index & 0xFFFFFFFF


def _kind(kind: int) -> int:
    if kind < 0:
        raise ValueError("value must be positive")
    if kind >= 1 << 32:
        raise OverflowError("Python int too large to convert to C unsigned long")
    return kind


def _mask(access: int) -> int:
    """The rights of a mask: those that stand for others are mapped, and those that choose a view of the registry dropped."""
    # As a C int it may be negative, too.
    if not -(1 << 31) <= access < 1 << 32:
        raise OverflowError("Python int too large to convert to C int")
    mask = access & 0xFFFFFFFF & ~(KEY_WOW64_64KEY | KEY_WOW64_32KEY)
    for bit, rights in _STANDS_FOR.items():
        if mask & bit:
            mask = mask & ~bit | rights
    return mask


def _variable(name: str) -> Optional[str]:
    """The value of an environment variable. Case makes no difference unless both spellings are there."""
    if name in os.environ:
        return os.environ[name]
    for other, value in os.environ.items():
        if other.upper() == name.upper():
            return value
    return None


def _key_number(key: Any) -> int:
    """The number of what a caller gives as a key."""
    if isinstance(key, HKEYType):
        return key.handle
    if isinstance(key, int):
        return _pointer(key)
    if key is None:
        raise TypeError("None is not a valid HKEY in this context")
    raise TypeError("The object is not a PyHKEY object")


def _pointer(number: int) -> int:
    """A number as a pointer in C is. A negative one is widened with its sign: pywin32 has such numbers for the roots.

    OverflowError where it has more than 64 bits.
    """
    if not -(1 << 63) <= number < 1 << 64:
        raise OverflowError("Python int too large to convert to C pointer")
    return number & (1 << 64) - 1


def _root_number(number: int) -> Optional[int]:
    """A root's number, which in a program of 32 bits has no bits above those. None where it is no root's."""
    number = _pointer(number)
    if number >> 32 == 0:
        number |= 0xFFFFFFFF << 32
    return number if number in _mounts else None


def _root_itself(key: Any, sub_key: Optional[str]) -> Optional[HKEYType]:
    """The handle of a root, where a call gives a root and None. A root stays open, so it is no handle more."""
    number = _key_number(key)
    return HKEYType(number) if sub_key is None and _root_number(number) is not None else None


def _root(number: int) -> int:
    """A root's number. OSError with winerror 6 where it is no root's."""
    root = _root_number(number)
    if root is None:
        raise _error(_c.INVALID_HANDLE)
    return root


def _mount_of_root(root: int) -> Mount:
    """What is mounted at a root itself, or else an empty hive that can't be changed."""
    mounted = _mounts[root].get(())
    if mounted:
        return mounted
    if root not in _bare:
        _bare[root] = Mount(root, (), Hive.new(), writable=False)
    return _bare[root]


def _opened_of(key: Any) -> _Opened:
    """What a caller's key stands for. OSError with winerror 6 where it isn't open."""
    number = _key_number(key)
    root = _root_number(number)
    if root is not None:
        at = _mount_of_root(root)
        return _Opened(at, at.hive.root, ())
    opened = _opened.get(number)
    if not opened:
        raise _error(_c.INVALID_HANDLE)
    return opened


def _place(key: Any, path: str) -> _Place:
    """Where a path leads from a key: into the mount with the longest path on the way, or on from the key itself."""
    opened = _opened_of(key)
    names = opened.names + _names(path)
    folded = _fold(names)
    mounts = _mounts[opened.mount._root]
    # A mount at the key itself or above it was crossed when the key was opened.
    for length in range(len(names), len(opened.names), -1):
        crossed = mounts.get(folded[:length])
        if crossed:
            return _Place(crossed, crossed.hive.root, "\\".join(names[length:]), names)
    return _Place(opened.mount, opened.key, "\\".join(names[len(opened.names) :]), names)


def _to_change(place: _Place) -> _Place:
    """Refuses a change where nothing may be changed: beside the mounts of a bare root, and in what is mounted to be read only."""
    if not place.mount._writable:
        raise _error(_c.ACCESS_DENIED)
    return place


def _opened_as(place: _Place, key: Key) -> HKEYType:
    number = next(_numbers)
    while _root_number(number) is not None:
        number = next(_numbers)
    _opened[number] = _Opened(place.mount, key, place.names)
    return HKEYType(number)


def _open(place: _Place, access: int) -> HKEYType:
    return _opened_as(place, place.key.open(place.path, _mask(access)))


def _create(place: _Place, access: int) -> HKEYType:
    if place.mount._writable:
        return _opened_as(place, place.key.create(place.path, _mask(access)))
    # What is there is opened, as in a mount that may be changed.
    if not _is_there(place.key, place.path):
        raise _error(_c.ACCESS_DENIED)
    return _open(place, access)


def _close(number: int) -> None:
    """Closes what a number stands for. A root, and 0, stay as they are."""
    if number == 0 or _root_number(number) is not None:
        return
    opened = _opened.pop(number, None)
    if not opened:
        raise _error(_c.INVALID_HANDLE)
    opened.key.close()


def _default_text(key: Any) -> str:
    """The text of the default value of an open key; the empty text where it has none. OSError where the value is of another type."""
    try:
        kind, data = _opened_of(key).key.value()
    except FileNotFoundError:
        return ""
    if kind != REG_SZ:
        raise _error(INVALID_DATA)
    return str(from_data(data, kind))


def _set(key: Any, name: str, kind: int, data: bytes) -> None:
    _to_change(_place(key, "")).key.set(name, kind, data)


def _delete(key: Any, path: str) -> None:
    place = _place(key, path)
    if _is_mount_at_or_below(place):
        raise _error(_c.ACCESS_DENIED)
    if not place.mount._writable and not _is_there(place.key, place.path):
        raise _error(_c.FILE_NOT_FOUND)
    with _looked_for(path):
        _to_change(place).key.delete(place.path)


@contextmanager
def _looked_for(name: str) -> Iterator[None]:
    """Tells of a name past ASCII that it isn't there, where the library says that it is none: on Windows it might be one."""
    try:
        yield
    except Error as refused:
        if refused.winerror == _c.INVALID_PARAMETER and not name.isascii():
            raise _error(_c.FILE_NOT_FOUND) from None
        raise


def _is_mount_at_or_below(place: _Place) -> bool:
    folded = _fold(place.names)
    mounts = _mounts[place.mount._root]
    return any(at and at[: len(folded)] == folded for at in list(mounts))


def _mounted_below(opened: _Opened) -> List[str]:
    """The names of what is mounted right below a key, without those that the key has as its own subkeys."""
    above = _fold(opened.names)
    names = []
    for folded, mounted in list(_mounts[opened.mount._root].items()):
        is_right_below = len(folded) == len(above) + 1 and folded[:-1] == above
        if is_right_below and not _is_there(opened.key, mounted._names[-1]):
            names.append(mounted._names[-1])
    return names


def _is_there(key: Key, path: str) -> bool:
    """Whether a path leads from a key to one."""
    try:
        key.open(path).close()
    except FileNotFoundError:
        return False
    return True


def _mount_at(root: int, names: Tuple[str, ...], file: Optional[_files.Path], create: bool, read_only: bool) -> Mount:
    mounts = _mounts[root]
    folded = _fold(names)
    if folded in mounts:
        raise _error(_c.ALREADY_EXISTS)
    if names:
        # The key above has to be there: FileNotFoundError where it isn't.
        _open(_place(root, "\\".join(names[:-1])), KEY_READ).Close()
    if file is not None and create and not os.path.exists(file):
        with Hive.new() as made:
            made.save(file)
    hive = Hive.new() if file is None else Hive.open(file, read_only=read_only)
    mounted = Mount(root, names, hive, not read_only)
    # Another thread may have come before.
    if mounts.setdefault(folded, mounted) is not mounted:
        hive.close()
        raise _error(_c.ALREADY_EXISTS)
    return mounted
