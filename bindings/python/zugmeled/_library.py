"""The C library: where it is found, and its functions with their types.

The functions have the names, arguments and statuses of `zugmeled.h`. They are called through `PyDLL`, so no other thread of Python runs
during a call.
"""

import ctypes
import ctypes.util
import os
from ctypes import POINTER, Structure, c_bool, c_char_p, c_size_t, c_uint8, c_uint32, c_uint64, c_void_p
from pathlib import Path
from typing import Any

#: The version of the header that this module was written by.
VERSION = 10000

#: Versions whose numbers agree above this are of use to each other.
_VERSION_STEP = 10000

# Statuses.
SUCCESS = 0
FILE_NOT_FOUND = 2
ACCESS_DENIED = 5
INVALID_HANDLE = 6
NOT_ENOUGH_MEMORY = 8
INVALID_PARAMETER = 87
INSUFFICIENT_BUFFER = 122
BUSY = 170
ALREADY_EXISTS = 183
MORE_DATA = 234
NO_MORE_ITEMS = 259
NOT_REGISTRY_FILE = 1017
KEY_DELETED = 1018
NO_SYSTEM_RESOURCES = 1450

# Rights, which are joined by | to a mask.
QUERY_VALUE = 0x1
SET_VALUE = 0x2
CREATE_SUB_KEY = 0x4
ENUMERATE_SUB_KEYS = 0x8
NOTIFY = 0x10
CREATE_LINK = 0x20
DELETE = 0x10000
READ_CONTROL = 0x20000
WRITE_DAC = 0x40000
WRITE_OWNER = 0x80000
ALL_ACCESS = 0xF003F

# Types of values.
NONE = 0
SZ = 1
EXPAND_SZ = 2
BINARY = 3
DWORD = 4
DWORD_BIG_ENDIAN = 5
LINK = 6
MULTI_SZ = 7
RESOURCE_LIST = 8
FULL_RESOURCE_DESCRIPTOR = 9
RESOURCE_REQUIREMENTS_LIST = 10
QWORD = 11

# Limits: of names, data and descriptors in bytes, of a path in names.
KEY_NAME_LIMIT = 255
VALUE_NAME_LIMIT = 16383
PATH_LIMIT = 512
DATA_LIMIT = 1048576
DESCRIPTOR_LIMIT = 65535
SESSIONS_LIMIT = 64
MADE_LIMIT = 32
SUBKEYS_LIMIT = 60000
VALUES_LIMIT = 16384
HANDLES_LIMIT = 16384
WATCHES_LIMIT = 4096
JOURNAL_LIMIT = 16777216
BINS_LIMIT = 268435456

# What zug_create_key did.
CREATED = 1
OPENED = 2

# Kinds of changes that a notice is asked of, which are joined by | to a filter.
FILTER_NAME = 0x1
FILTER_ATTRIBUTES = 0x2
FILTER_LAST_SET = 0x4
FILTER_SECURITY = 0x8
FILTER_THREAD_AGNOSTIC = 0x10000000

# Why a notice came.
MATCHED = 1
GONE = 2
CLOSED = 3

# The changes that zug_cause knows.
OPEN_ROOT = 0
OPEN_KEY = 1
CREATE_KEY = 2
SET = 3
DELETE_VALUE = 4
DELETE_KEY = 5
DELETE_TREE = 6
SET_SECURITY = 7
NOTIFY_CHANGE = 8
CLOSE = 9


class HiveWords(Structure):
    """What a hive is held by. All zero it holds none; only the library writes it."""

    _fields_ = [("holds", c_uint64), ("at", c_void_p)]


class Info(Structure):
    """A key's numbers. Sizes are in bytes, the time in units of 100 ns since 1601."""

    _fields_ = [
        ("subkeys", c_uint32),
        ("longest_key", c_uint32),
        ("values", c_uint32),
        ("longest_value", c_uint32),
        ("largest", c_uint32),
        ("security", c_uint32),
        ("time", c_uint64),
    ]


class ZugSubkey(Structure):
    """A key, as it stands among others."""

    _fields_ = [
        ("time", c_uint64),
        ("name_size", c_uint32),
        ("subkeys", c_uint32),
        ("values", c_uint32),
        ("marks", c_uint32),
    ]


class ZugValue(Structure):
    """A value, as it stands among others."""

    _fields_ = [("name_size", c_uint32), ("kind", c_uint32), ("size", c_uint32)]


_HIVE = POINTER(HiveWords)
_OUT8 = POINTER(c_uint8)
_OUT32 = POINTER(c_uint32)
_OUT64 = POINTER(c_uint64)

# Bytes that a call reads, and a room that it writes: each with its length.
_BYTES = (c_char_p, c_size_t)
_ROOM = (c_void_p, c_size_t)

# Rows that a call writes, with how many there are.
_SUBKEYS = (POINTER(ZugSubkey), c_size_t)
_VALUES = (POINTER(ZugValue), c_size_t)

# What stands before a change's own arguments (hive, session, moment), and before a question's (hive, session, handle).
_CHANGE = (_HIVE, c_uint8, c_uint64)
_QUESTION = (_HIVE, c_uint8, c_uint64)

_ARGUMENTS = {
    "zug_hive_new": (_HIVE, *_BYTES, *_BYTES, c_uint64),
    "zug_hive_load": (_HIVE, *_BYTES, _OUT8),
    "zug_entries": (_HIVE, _OUT64, _OUT64),
    "zug_hive_cut": (_HIVE, _OUT64),
    "zug_image_size": (_HIVE, _OUT64, _OUT64),
    "zug_image_part": (_HIVE, c_uint64, c_uint32, c_uint64, c_uint64, *_ROOM),
    "zug_open_root": (*_CHANGE, c_uint32, _OUT64),
    "zug_open_key": (*_CHANGE, c_uint64, *_BYTES, c_uint32, _OUT64),
    "zug_create_key": (*_CHANGE, c_uint64, *_BYTES, c_uint32, *_BYTES, _OUT64, _OUT32),
    "zug_set_value": (*_CHANGE, c_uint64, *_BYTES, c_uint32, *_BYTES),
    "zug_delete_value": (*_CHANGE, c_uint64, *_BYTES),
    "zug_delete_key": (*_CHANGE, c_uint64, *_BYTES),
    "zug_delete_tree": (*_CHANGE, c_uint64, *_BYTES),
    "zug_set_security": (*_CHANGE, c_uint64, *_BYTES),
    "zug_notify": (*_CHANGE, c_uint64, c_uint32, c_bool, _OUT64),
    "zug_close": (*_CHANGE, c_uint64),
    "zug_query_value": (*_QUESTION, *_BYTES, *_ROOM, _OUT32, _OUT32),
    "zug_enum_key": (*_QUESTION, c_uint32, *_ROOM, _OUT32, _OUT64),
    "zug_enum_value": (*_QUESTION, c_uint32, *_ROOM, _OUT32, *_ROOM, _OUT32, _OUT32),
    "zug_query_info": (*_QUESTION, POINTER(Info)),
    "zug_get_security": (*_QUESTION, *_ROOM, _OUT32),
    "zug_key_at": (_HIVE, *_BYTES, POINTER(ZugSubkey), *_ROOM),
    "zug_subkeys_at": (_HIVE, *_BYTES, c_uint32, *_SUBKEYS, *_ROOM, _OUT32),
    "zug_values_at": (_HIVE, *_BYTES, c_uint32, *_VALUES, *_ROOM, _OUT32),
    "zug_subkeys_with_values_at": (_HIVE, *_BYTES, c_uint32, *_SUBKEYS, *_VALUES, *_ROOM, _OUT32),
    "zug_take_notice": (_HIVE, c_uint8, _OUT64, _OUT64, _OUT32),
    "zug_cause": (*_CHANGE, c_uint32, c_uint64, *_BYTES, c_uint32, *_BYTES, c_bool),
}


def _library_path() -> str:
    """Where the library is: what the variable ZUGMELED names, else the repository's own, else what the system finds."""
    named = os.environ.get("ZUGMELED")
    if named:
        return named
    built = Path(__file__).resolve().parents[3] / "dist" / "libzugmeled.so"
    if built.is_file():
        return str(built)
    return ctypes.util.find_library("zugmeled") or "libzugmeled.so"


def _with_types(library: Any) -> Any:
    """Gives each function its types: without them a pointer would be cut to an int."""
    for name, arguments in _ARGUMENTS.items():
        function = getattr(library, name)
        function.argtypes = arguments
        function.restype = c_uint32
    library.zug_hive_close.argtypes = (_HIVE,)
    library.zug_hive_close.restype = None
    library.zug_version.argtypes = ()
    library.zug_version.restype = c_uint32
    return library


def _loaded(path: str) -> Any:
    """The library at a path. ImportError where there is none, or one of another version."""
    try:
        library = _with_types(ctypes.PyDLL(path))
    except (OSError, AttributeError) as why:
        raise ImportError(f"no library of zugmeled at {path}: {why}. The variable ZUGMELED may name it.") from why
    version = library.zug_version()
    if version // _VERSION_STEP != VERSION // _VERSION_STEP or version < VERSION:
        raise ImportError(f"{path} has version {version}, but {VERSION} is needed")
    return library


library = _loaded(_library_path())
