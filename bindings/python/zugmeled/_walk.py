"""Keys and values by their paths from the root: many by one call, without a handle, and so without an entry of the journal."""

import itertools
import struct
from ctypes import c_uint32, create_string_buffer, string_at
from typing import Any, Callable, Iterator, List, NamedTuple, Tuple, TypeVar

from . import _library as c
from ._errors import NotFound, error
from ._values import Value, from_data

# How many items a call tells at most, and how many bytes of names and data it has room for at first. A key's name always finds room.
_ROWS = 256
_FIRST_ROOM = 16 << 10

# ZugSubkey and ZugValue: all rows of a call are read at once, which is faster than field by field.
_SUBKEY = struct.Struct("=QIIII")
_VALUE = struct.Struct("=III")

_Item = TypeVar("_Item")


class KeyRow(NamedTuple):
    """A key, as it stands among others.

    Its name; when it was last written, in units of 100 ns since 1601; how many subkeys and values it has; its marks, of which 8 says that
    it may not be deleted.
    """

    name: str
    time: int
    subkeys: int
    values: int
    marks: int


#: A subkey, and the names of its values, each with what the value is.
KeyWithValues = Tuple[KeyRow, List[Tuple[str, Value]]]

#: A key in a walk: its path from the root, its subkeys, and the names of its values, each with what the value is.
Step = Tuple[str, List[KeyRow], List[Tuple[str, Value]]]


class Rooms:
    """What the library fills with keys and values, over and over. Paths are bytes, as the library takes them."""

    def __init__(self, call: Callable[..., int]) -> None:
        """`call` calls a function of the library on a hive, and answers the status."""
        self._call = call
        self._key = c.ZugSubkey()
        self._subkeys = (c.ZugSubkey * _ROWS)()
        self._values = (c.ZugValue * _ROWS)()
        self._room = create_string_buffer(_FIRST_ROOM)
        self._count = c_uint32()

    def key(self, path: bytes) -> KeyRow:
        """The key at the end of a path. NotFound where there is none."""
        row = self._key_at(path)
        name = string_at(self._room, row.name_size).decode("ascii")
        return KeyRow(name, row.time, row.subkeys, row.values, row.marks)

    def subkeys(self, path: bytes) -> Iterator[KeyRow]:
        """Goes through a key's subkeys."""
        return _each(self._subkeys_from, path)

    def values(self, path: bytes) -> Iterator[Tuple[str, Value]]:
        """Goes through a key's values."""
        return _each(self._values_from, path)

    def subkeys_with_values(self, path: bytes) -> Iterator[KeyWithValues]:
        """Goes through a key's subkeys, each with its values."""
        return _each(self._subkeys_with_values_from, path)

    def walk(self, path: bytes) -> Iterator[Step]:
        """Goes through a key and all keys below it, each before its subkeys."""
        # It raises where there is no such key. One that leads to a key is ASCII.
        self._key_at(path)
        left = [path.decode("ascii")]
        while left:
            at = left.pop()
            try:
                subkeys, values = self._items_of(at.encode("ascii"))
            except NotFound:
                # The key was deleted since its parent was asked.
                continue
            yield at, subkeys, values
            left.extend(f"{at}\\{row.name}" if at else row.name for row in reversed(subkeys))

    def _items_of(self, path: bytes) -> Tuple[List[KeyRow], List[Tuple[str, Value]]]:
        # The key's own numbers spare a call that would tell that there are no more.
        row = self._key_at(path)
        subkeys, values = row.subkeys, row.values
        return _first(subkeys, self._subkeys_from, path), _first(values, self._values_from, path)

    def _key_at(self, path: bytes) -> c.ZugSubkey:
        """What is told of a key, whose name is in the room then."""
        status = self._call(c.library.zug_key_at, path, len(path), self._key, self._room, len(self._room))
        if status != c.SUCCESS:
            raise error(status)
        return self._key

    def _subkeys_from(self, path: bytes, index: int, most: int = _ROWS) -> List[KeyRow]:
        """Subkeys from an index on, as many as have place: none only where no subkey has the index."""
        count = self._asked(c.library.zug_subkeys_at, path, index, self._subkeys, most)
        rows = list(itertools.islice(_SUBKEY.iter_unpack(self._subkeys), count))
        told = _Told(self._room, sum(row[1] for row in rows))
        return [told.key(row) for row in rows]

    def _values_from(self, path: bytes, index: int) -> List[Tuple[str, Value]]:
        """Values from an index on, as many as have place: none only where no value has the index."""
        count = self._asked(c.library.zug_values_at, path, index, self._values)
        rows = list(itertools.islice(_VALUE.iter_unpack(self._values), count))
        told = _Told(self._room, sum(name_size + size for name_size, _kind, size in rows))
        return [told.value(row) for row in rows]

    def _subkeys_with_values_from(self, path: bytes, index: int) -> List[KeyWithValues]:
        """Subkeys from an index on, each with its values, as many as have place: none only where no subkey has the index."""
        while True:
            rooms = (self._subkeys, _ROWS, self._values, _ROWS, self._room, len(self._room))
            status = self._call(c.library.zug_subkeys_with_values_at, path, len(path), index, *rooms, self._count)
            if status == c.MORE_DATA:
                try:
                    return self._first_with_values(path, index)
                except NotFound:
                    # Another thread deleted it since. Where it is the parent that is gone, the next call tells that.
                    continue
            if status not in (c.SUCCESS, c.NO_MORE_ITEMS):
                raise error(status)
            return self._told_with_values(self._count.value)

    def _told_with_values(self, count: int) -> List[KeyWithValues]:
        """What was told of so many subkeys, each with its values."""
        keys = list(itertools.islice(_SUBKEY.iter_unpack(self._subkeys), count))
        rows = list(itertools.islice(_VALUE.iter_unpack(self._values), sum(row[3] for row in keys)))
        told = _Told(self._room, sum(row[1] for row in keys) + sum(name_size + size for name_size, _kind, size in rows))
        values = iter(rows)
        return [(told.key(row), [told.value(each) for each in itertools.islice(values, row[3])]) for row in keys]

    def _first_with_values(self, path: bytes, index: int) -> List[KeyWithValues]:
        """The subkey at an index, which has no place with all its values at once."""
        found = self._subkeys_from(path, index, 1)
        names = [row.name.encode("ascii") for row in found]
        return [(row, list(self.values(path + b"\\" + name if path else name))) for row, name in zip(found, names)]

    def _asked(self, function: Any, path: bytes, index: int, rows: Any, most: int = _ROWS) -> int:
        """Asks for items, at most so many, with more room as long as there isn't enough for one, and tells how many came."""
        while True:
            status = self._call(function, path, len(path), index, rows, most, self._room, len(self._room), self._count)
            if status == c.MORE_DATA:
                # It is never so of subkeys. The first row tells what its value needs; twice as much as there was may spare the next growth.
                needed = rows[0].name_size + rows[0].size
                self._room = create_string_buffer(max(needed, 2 * len(self._room)))
            elif status in (c.SUCCESS, c.NO_MORE_ITEMS):
                return self._count.value
            else:
                raise error(status)


class _Told:
    """What a room has been filled with, read from its front on."""

    def __init__(self, room: Any, size: int) -> None:
        self._bytes = string_at(room, size)
        self._end = 0

    def _next(self, size: int) -> bytes:
        begin, self._end = self._end, self._end + size
        return self._bytes[begin : self._end]

    def key(self, row: Tuple[int, int, int, int, int]) -> KeyRow:
        """The next key, by its ZugSubkey."""
        written, size, subkeys, values, marks = row
        return KeyRow(self._next(size).decode("ascii"), written, subkeys, values, marks)

    def value(self, row: Tuple[int, int, int]) -> Tuple[str, Value]:
        """The next value, by its ZugValue."""
        name_size, kind, size = row
        name = self._next(name_size).decode("ascii")
        return name, from_data(self._next(size), kind)


def _each(items_from: Callable[[bytes, int], List[_Item]], path: bytes) -> Iterator[_Item]:
    """Goes through all items of a key. Some are asked for at once, from the index behind those before on."""
    index = 0
    while True:
        items = items_from(path, index)
        if not items:
            return
        yield from items
        index += len(items)


def _first(count: int, items_from: Callable[[bytes, int], List[_Item]], path: bytes) -> List[_Item]:
    """As many items of a key as it had. Another thread may have changed that."""
    found: List[_Item] = []
    while len(found) < count:
        more = items_from(path, len(found))
        if not more:
            break
        found += more
    return found
