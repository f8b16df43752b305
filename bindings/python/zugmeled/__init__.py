"""Hive files of the Windows registry, opened, read, changed and saved on Unix.

    from zugmeled import Hive

    with Hive.open("NTUSER.DAT") as hive:
        with hive.root.create(r"Software\\Zug") as key:
            key["Version"] = 4
        hive.save()

`zugmeled.winreg` stands in for the standard module `winreg`.
"""

from ._errors import Denied, Error, Exists, InUse, NotFound
from ._hive import EMPTY_SECURITY, Hive, Key, KeyInfo, Notice, now
from ._library import (
    ALL_ACCESS,
    CLOSED,
    CREATE_LINK,
    CREATE_SUB_KEY,
    DELETE,
    ENUMERATE_SUB_KEYS,
    FILTER_ATTRIBUTES,
    FILTER_LAST_SET,
    FILTER_NAME,
    FILTER_SECURITY,
    FILTER_THREAD_AGNOSTIC,
    GONE,
    MATCHED,
    NOTIFY,
    QUERY_VALUE,
    READ_CONTROL,
    SET_VALUE,
    WRITE_DAC,
    WRITE_OWNER,
)
from ._values import (
    REG_BINARY,
    REG_DWORD,
    REG_DWORD_BIG_ENDIAN,
    REG_EXPAND_SZ,
    REG_FULL_RESOURCE_DESCRIPTOR,
    REG_LINK,
    REG_MULTI_SZ,
    REG_NONE,
    REG_QWORD,
    REG_RESOURCE_LIST,
    REG_RESOURCE_REQUIREMENTS_LIST,
    REG_SZ,
    Value,
    from_data,
    to_data,
)
from ._walk import KeyRow

__version__ = "1.0.0"

__all__ = [
    "ALL_ACCESS",
    "CLOSED",
    "CREATE_LINK",
    "CREATE_SUB_KEY",
    "DELETE",
    "Denied",
    "EMPTY_SECURITY",
    "ENUMERATE_SUB_KEYS",
    "Error",
    "Exists",
    "FILTER_ATTRIBUTES",
    "FILTER_LAST_SET",
    "FILTER_NAME",
    "FILTER_SECURITY",
    "FILTER_THREAD_AGNOSTIC",
    "from_data",
    "GONE",
    "Hive",
    "InUse",
    "Key",
    "KeyInfo",
    "KeyRow",
    "MATCHED",
    "NotFound",
    "Notice",
    "NOTIFY",
    "now",
    "QUERY_VALUE",
    "READ_CONTROL",
    "REG_BINARY",
    "REG_DWORD",
    "REG_DWORD_BIG_ENDIAN",
    "REG_EXPAND_SZ",
    "REG_FULL_RESOURCE_DESCRIPTOR",
    "REG_LINK",
    "REG_MULTI_SZ",
    "REG_NONE",
    "REG_QWORD",
    "REG_RESOURCE_LIST",
    "REG_RESOURCE_REQUIREMENTS_LIST",
    "REG_SZ",
    "SET_VALUE",
    "to_data",
    "Value",
    "WRITE_DAC",
    "WRITE_OWNER",
]
