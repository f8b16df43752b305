"""Hives, and the keys in them."""

import datetime
import itertools
import os
import threading
import time
import weakref
from collections import deque
from ctypes import c_uint8, c_uint32, c_uint64, create_string_buffer, string_at
from types import TracebackType
from typing import Any, Callable, Deque, Iterator, List, NamedTuple, Optional, Set, Tuple, Type

from . import _files
from . import _library as c
from ._errors import Error, error, load_error
from ._values import Value, from_data, kind_for, to_data
from ._walk import KeyRow, KeyWithValues, Rooms, Step

#: A security descriptor without owner, group and lists.
EMPTY_SECURITY = bytes.fromhex("0100048000000000000000000000000000000000")

# A thread of Python needs no session of its own: the hive's lock lets one call in at a time.
_SESSION = 0

# In place of a handle's number: the root's, which the hive itself keeps, and that of a key that was deleted.
_ROOT = -1
_DELETED = -2

# How many bytes a question is asked with first. More are asked for where they aren't enough.
_FIRST_ROOM = 1024
_FIRST_NAME_ROOM = 256

# An entry of the journal takes so many bytes, and what was given. With more than the second number the journal is cut.
_ENTRY = 200
_CUT_AT = 16 << 20

_SEQUENCES = 1 << 32

# The library's numbers are of 32 bits, its moments of 64. ctypes would cut what is larger.
_WORDS = 1 << 32
_MOMENTS = 1 << 64

# Units of 100 ns in a second, and from 1601 to 1970.
_TICKS = 10_000_000
_TICKS_TO_1970 = 116_444_736_000_000_000


def now() -> int:
    """The clock's moment: units of 100 ns since 1601, in UTC."""
    return time.time_ns() // 100 + _TICKS_TO_1970


class Notice(NamedTuple):
    """That a watch ended: its number, the number of the entry that ended it, and why (MATCHED, GONE or CLOSED)."""

    watch: int
    entry: int
    reason: int


class KeyInfo(NamedTuple):
    """A key's numbers: how many there are, sizes in bytes, and when it was last written, in units of 100 ns since 1601."""

    subkeys: int
    longest_key: int
    values: int
    longest_value: int
    largest: int
    security: int
    time: int


class Hive:
    """A hive in memory: a tree of keys. It is made by `Hive.open`, `Hive.new` or `Hive.loads`, and freed by `close`.

    Threads may share it; what handles a signal may not call it. What a call refuses is an `Error`, with the status as its `winerror`.
    """

    def __init__(self, words: c.HiveWords, sequence: int, clock: Callable[[], int]) -> None:
        """For the three makers: takes over a hive, with the sequence number of its image."""
        self._words = words
        self._sequence = sequence
        self._process = os.getpid()
        self._file: Optional[_files.HeldFile] = None
        self._lock = threading.Lock()
        # One save at a time: it is held from the image to the file, and taken before the other.
        self._saving = threading.Lock()
        # Handles of keys that went without being closed. A key may go while another call is under way, even in the same thread, so it
        # closes nothing itself.
        self._forgotten: Deque[int] = deque()
        self._keys: "weakref.WeakSet[Key]" = weakref.WeakSet()
        # The keys that a cut closed and that are to be opened again, behind the root. None where nothing is due.
        self._closed_by_cut: Optional[List[Key]] = None
        # The numbers of the watches that somebody was told of, and whose notice wasn't taken. A count would be wrong for ever where Ctrl-C
        # came between it and the library's call.
        self._watches: Set[int] = set()
        self._uncut = 0
        # How many changes there may have been, and of how many the hive's own file knows.
        self._changes = 0
        self._saved = 0
        #: Tells the moment of each call, in units of 100 ns since 1601. It may be set to another function, which calls no hive.
        self.clock = clock
        self._root = self._opened_root(self._moment())

    @classmethod
    def open(cls, path: _files.Path, *, read_only: bool = False) -> "Hive":
        """Loads the hive of a file, and keeps the file's lock until the hive is closed.

        InUse where somebody else edits the file. With `read_only` the file isn't locked, and `save` needs a path.
        """
        if read_only:
            return cls.loads(_files.read(path))
        file = _files.HeldFile(path)
        try:
            hive = cls.loads(file.read())
        except BaseException:
            file.close()
            raise
        hive._file = file
        return hive

    @classmethod
    def new(cls, root_name: str = "ROOT", *, security: bytes = EMPTY_SECURITY, clock: Callable[[], int] = now) -> "Hive":
        """Makes a hive of one root, with a name and a security descriptor. It has no file."""
        words = c.HiveWords()
        name = _encoded(root_name)
        security = _bytes_of(security)
        _told(c.library.zug_hive_new(words, name, len(name), security, len(security), _moment_of(clock)))
        return cls(words, 0, clock)

    @classmethod
    def loads(cls, data: bytes) -> "Hive":
        """Loads a hive from the bytes of a hive file. It has no file. An Error with winerror 1017 tells its `fault` where it doesn't load."""
        data = _bytes_of(data)
        words = c.HiveWords()
        fault = c_uint8()
        status = c.library.zug_hive_load(words, data, len(data), fault)
        if status != c.SUCCESS:
            raise load_error(status, fault.value)
        return cls(words, int.from_bytes(data[4:8], "little"), now)

    @classmethod
    def copy_of(cls, key: "Key") -> "Hive":
        """Makes a hive whose root is a copy of a key, with all that is below it. Times are kept, classes and marks aren't."""
        with key.open() as source:
            hive = cls.new(source.name or "ROOT", security=source.security)
            _copy(source, hive.root)
        hive.clock = now
        return hive

    @property
    def root(self) -> "Key":
        """The root, with all rights. It needs no closing."""
        return Key(self, "", c.ALL_ACCESS, _ROOT)

    @property
    def name(self) -> str:
        """The root's name."""
        return self.look().name

    @property
    def path(self) -> Optional[str]:
        """The file that `save` writes, if the hive has one."""
        return self._file.path if self._file else None

    @property
    def changed(self) -> bool:
        """Whether a call may have changed a key since the hive was made, loaded or saved to its own file."""
        return self._changes != self._saved

    def look(self, path: str = "") -> KeyRow:
        """Tells of the key at the end of a path from the root. FileNotFoundError where there is none.

        It opens no key, and neither do `subkeys`, `values`, `subkeys_with_values` and `walk`. So no entry of the journal comes of them.
        """
        return Rooms(self._call).key(_encoded(path))

    def subkeys(self, path: str = "") -> Iterator[KeyRow]:
        """Goes through the subkeys of the key at the end of a path, in the order of their names. FileNotFoundError where there is none.

        Up to 256 are asked for at once, by the index of the first. Where subkeys are made or deleted meanwhile, one may be passed over, come
        twice or be gone: `list` has all first. Where the key itself is deleted it is FileNotFoundError at the next that is asked for.
        """
        return Rooms(self._call).subkeys(_encoded(path))

    def values(self, path: str = "") -> Iterator[Tuple[str, Value]]:
        """Goes through the names of a key's values, each with what `key[name]` is, in the order in which they were added.

        They are asked for as `subkeys` are.
        """
        return Rooms(self._call).values(_encoded(path))

    def subkeys_with_values(self, path: str = "") -> Iterator[KeyWithValues]:
        """Goes through the subkeys of the key at the end of a path, each with its values: by one call of the library for many of them.

            for row, values in hive.subkeys_with_values("Services"):
                print(row.name, dict(values))

        They are asked for as `subkeys` are. A key with more than 256 values, or with much data, has its values asked for by themselves:
        then another thread may change them meanwhile.
        """
        return Rooms(self._call).subkeys_with_values(_encoded(path))

    def walk(self, path: str = "") -> Iterator[Step]:
        """Goes through the key at the end of a path and all keys below it, each before its subkeys, in the order of names.

            for path, subkeys, values in hive.walk():
                print(path, [row.name for row in subkeys], dict(values))

        Paths are from the root. What you remove from the list of subkeys isn't gone to. A key is asked when the walk comes to it, so what is
        changed meanwhile below it is told as it is then, and a key that was deleted is passed over. FileNotFoundError where the first key
        isn't there.
        """
        return Rooms(self._call).walk(_encoded(path))

    def image(self) -> bytes:
        """The bytes of a hive file: this hive's, with the clock's moment and the next sequence number."""
        moment = self._moment()
        with self._lock:
            return self._image(moment)

    def save(self, path: Optional[_files.Path] = None) -> None:
        """Saves the hive to its own file, or makes another file with it: FileExistsError where one is there.

        Whatever fails, the hive's own file is as it was, and another one isn't made. Only where the folder couldn't be synced the new file
        stands there. ValueError where the hive has no file and no path is given. Threads save one after another: once the call returns, the
        file has all changes that were made before it, and maybe later ones.
        """
        if self._file and (path is None or self._file.is_at(path)):
            self._save_own(self._file)
        elif path is not None:
            _files.make(path, self.image())
        else:
            raise ValueError("the hive has no file of its own: give a path")

    def notices(self) -> Iterator[Notice]:
        """Takes the notices that came, each once, until no more are there."""
        watch, entry, reason = c_uint64(), c_uint64(), c_uint32()
        while True:
            status = self._take(watch, entry, reason)
            if status == c.NO_MORE_ITEMS:
                return
            _told(status)
            yield Notice(watch.value, entry.value, reason.value)

    def entries(self) -> Tuple[int, int]:
        """How many entries the journal has had, and how many of them it keeps."""
        entries, kept = c_uint64(), c_uint64()
        _told(self._call(c.library.zug_entries, entries, kept))
        return entries.value, kept.value

    def cut(self) -> int:
        """Frees the journal's memory, and tells how many entries that were. Keys stay open.

        An Error with winerror 170 where a notice that was asked for wasn't taken. The hive does so itself where it can, once the journal
        has some 16 MB.

        All keys are closed for that, and opened again. Where one can't be (8), or Ctrl-C comes, this is tried again at the next use of any
        key: that is refused, and changes nothing, until all are open.
        """
        freed = c_uint64()
        with self._lock:
            self._prepare()
            if self._watches:
                raise error(c.BUSY, "a notice is waited for")
            _told(self._cut(freed))
        return freed.value

    def close(self, *, save: bool = False) -> None:
        """Frees the hive, and gives up its file. What wasn't saved is lost, and calls on its keys answer 6. A second time nothing happens.

        With `save` it is saved to its own file first, if it has one and may have changed; where that fails it stays open. No change of
        another thread comes between the two and is lost: its call waits for this one, and answers 6 then.
        """
        with self._saving:
            moment = self._moment() if save else 0
            with self._lock:
                if save and self._file and self.changed and self._words.holds:
                    self._put(self._file, self._image(moment), self._changes)
                c.library.zug_hive_close(self._words)
                if self._file:
                    self._file.close()

    def __enter__(self) -> "Hive":
        return self

    def __exit__(self, kind: Optional[Type[BaseException]], raised: Optional[BaseException], where: Optional[TracebackType]) -> None:
        self.close()

    def __del__(self) -> None:
        # It is without a file where making it failed. A child of the process leaves it alone: a lock may be held by a thread that it lacks.
        if hasattr(self, "_file") and self._process == os.getpid():
            self.close()

    def __repr__(self) -> str:
        return f"<Hive {self.path!r}>" if self.path else "<Hive>"

    def _next_sequence(self) -> int:
        return (self._sequence + 1) % _SEQUENCES

    def _moment(self) -> int:
        return _moment_of(self.clock)

    def _image(self, moment: int) -> bytes:
        """The hive's image. The lock is held, so that no change comes between the two calls."""
        size, entries = c_uint64(), c_uint64()
        _told(c.library.zug_image_size(self._words, size, entries))
        room = create_string_buffer(size.value)
        part = (moment, self._next_sequence(), entries.value, 0, room, len(room))
        _told(c.library.zug_image_part(self._words, *part))
        return room.raw

    def _save_own(self, file: _files.HeldFile) -> None:
        with self._saving:
            moment = self._moment()
            with self._lock:
                image, changes = self._image(moment), self._changes
            self._put(file, image, changes)

    def _put(self, file: _files.HeldFile, image: bytes, changes: int) -> None:
        """Puts an image in the file's place, which knows of so many changes then."""
        file.replace(image)
        self._sequence = self._next_sequence()
        file.sync_folder()
        self._saved = changes

    def _call(self, function: Any, *arguments: Any) -> int:
        """Calls a function of the library on this hive, under its lock, and answers the status."""
        with self._lock:
            self._close_forgotten()
            return function(self._words, *arguments)

    def _ask(self, function: Any, key: "Key", *arguments: Any) -> int:
        """Asks a question of a key, and answers the status."""
        with self._lock:
            self._prepare()
            return function(self._words, _SESSION, key._number(), *arguments)

    def _change(self, function: Any, key: "Key", *arguments: Any) -> None:
        """Makes a change of keys by a key's handle."""
        with self._lock:
            self._make(function, key, *arguments, is_of_keys=True)

    def _watch(self, watch: c_uint64, function: Any, key: "Key", *arguments: Any) -> None:
        """Makes a change by a key's handle that asks for a notice."""
        with self._lock:
            self._make(function, key, *arguments)
            # Where Ctrl-C comes before this nobody is told of the watch, and a cut may end it.
            self._watches.add(watch.value)

    def _take(self, watch: c_uint64, *arguments: Any) -> int:
        """Takes a notice, and answers the status."""
        with self._lock:
            self._close_forgotten()
            try:
                return c.library.zug_take_notice(self._words, _SESSION, watch, *arguments)
            finally:
                # It is gone from the library even where Ctrl-C came behind the call. Where none was taken there is 0, which is no watch's
                # number: the root was opened first.
                self._watches.discard(watch.value)

    def _open_key(self, opens: "Key", opened: c_uint64, function: Any, key: "Key", *arguments: Any) -> None:
        """Makes a change by a key's handle that opens another key."""
        with self._lock:
            self._make(function, key, *arguments)
            opens._handle = opened.value
            self._keys.add(opens)

    def _create_key(self, opens: "Key", opened: c_uint64, disposition: c_uint32, function: Any, key: "Key", *arguments: Any) -> None:
        """The same of a change that may make keys."""
        with self._lock:
            self._make(function, key, *arguments, is_of_keys=True)
            opens._handle = opened.value
            self._keys.add(opens)
            if disposition.value != c.CREATED:
                self._changes -= 1

    def _make(self, function: Any, key: "Key", *arguments: Any, is_of_keys: bool = False) -> None:
        self._prepare()
        if self._uncut > _CUT_AT and not self._watches:
            # Where it is refused the journal grows on, which is no fault of this call.
            self._cut(c_uint64())
        moment, handle = self._moment(), key._number()
        # It counts before it is made, so that no signal comes between the two.
        self._changes += is_of_keys
        status = function(self._words, _SESSION, moment, handle, *arguments)
        if status != c.SUCCESS:
            self._changes -= is_of_keys
            raise error(status)
        self._uncut += _ENTRY + sum(len(given) for given in arguments if isinstance(given, bytes))

    def _close_handle(self, handle: int, moment: int) -> None:
        # The status is 6 where the hive was closed before its key, or the handle before: none is used twice.
        c.library.zug_close(self._words, _SESSION, moment, handle)
        self._uncut += _ENTRY

    def _close_forgotten(self) -> None:
        while self._forgotten:
            self._close_handle(self._forgotten[0], self._moment())
            # Not before, since the handle would be lost where that is interrupted.
            self._forgotten.popleft()

    def _prepare(self) -> None:
        """Does what is due before a key is used."""
        if self._forgotten:
            self._close_forgotten()
        if self._closed_by_cut is not None:
            self._open_again(self._moment())

    def _opened_root(self, moment: int) -> int:
        opened = c_uint64()
        _told(c.library.zug_open_root(self._words, _SESSION, moment, c.ALL_ACCESS, opened))
        return opened.value

    def _cut(self, freed: c_uint64) -> int:
        """Cuts the journal, and answers the status. No handle may be open for that, so all are closed, and opened again behind it.

        A key has its path as long as it isn't deleted, so that the path leads to it again. Where this is refused or interrupted, the list of
        the keys that are to be opened stays, and the next use goes on with it. It makes no change before, so each path still leads to its key.
        """
        moment = self._moment()
        keys = [key for key in self._keys if key._own_handle() is not None]
        deleted = {key for key in keys if self._is_deleted(key, moment)}
        self._closed_by_cut = [key for key in keys if key not in deleted]
        for key in keys:
            self._close_own_handle(key, moment)
            if key in deleted:
                key._handle = _DELETED
        self._close_handle(self._root, moment)
        status = c.library.zug_hive_cut(self._words, freed)
        if status == c.BUSY:
            self._close_lost(moment)
            status = c.library.zug_hive_cut(self._words, freed)
        self._uncut = 0
        self._open_again(moment)
        return status

    def _close_lost(self, moment: int) -> None:
        """Closes the handles that no key has, because a signal came right behind their opening. A handle's number is its entry's."""
        entries, kept = c_uint64(), c_uint64()
        _told(c.library.zug_entries(self._words, entries, kept))
        for handle in range(entries.value - kept.value, entries.value):
            self._close_handle(handle, moment)

    def _is_deleted(self, key: "Key", moment: int) -> bool:
        arguments = (c.OPEN_KEY, key._handle, b"", 0, c.ALL_ACCESS, b"", 0, False)
        status = c.library.zug_cause(self._words, _SESSION, moment, *arguments)
        # 1450 where no more handles may be open; 6 where a cut was interrupted behind the closing of a deleted key's.
        if status not in (c.SUCCESS, c.NO_SYSTEM_RESOURCES, c.KEY_DELETED, c.INVALID_HANDLE):
            raise error(status)
        return status in (c.KEY_DELETED, c.INVALID_HANDLE)

    def _open_again(self, moment: int) -> None:
        """Opens the root and the keys that a cut closed. What is open, because this or the cut was interrupted, is closed first."""
        self._close_handle(self._root, moment)
        self._root = self._opened_root(moment)
        while self._closed_by_cut:
            key = self._closed_by_cut[-1]
            self._close_own_handle(key, moment)
            if key._own_handle() is not None:
                key._handle = self._opened_by_path(key, moment)
            self._closed_by_cut.pop()
        self._closed_by_cut = None

    def _close_own_handle(self, key: "Key", moment: int) -> None:
        handle = key._own_handle()
        if handle is not None:
            self._close_handle(handle, moment)

    def _opened_by_path(self, key: "Key", moment: int) -> int:
        path = _encoded(key.path)
        opened = c_uint64()
        arguments = (self._root, path, len(path), key._mask, opened)
        _told(c.library.zug_open_key(self._words, _SESSION, moment, *arguments))
        return opened.value


class Key:
    """A key that is open. Its values are got, set and deleted by name, and looping over it gives its subkeys, as keys.

        key["Version"] = 4
        for child in key:
            print(child.name, child.get("Version"))

    It closes by itself when nothing refers to it any more. A path is names joined by backslashes; case makes no difference. A key that
    was deleted, even if one was made again under its name, answers winerror 1018.
    """

    _handle: Optional[int] = None

    def __init__(self, hive: Hive, path: str, mask: int, handle: Optional[int] = None) -> None:
        """For this module: a key that is to be opened, or the root."""
        self.hive = hive
        self._path = path
        self._mask = mask
        self._handle = handle

    @property
    def path(self) -> str:
        """The path from the root by which the key was opened; that of the root is empty."""
        return self._path

    @property
    def name(self) -> str:
        """The last name of the path; that of the root is empty."""
        return self._path.rpartition("\\")[2]

    def open(self, path: str = "", mask: int = c.ALL_ACCESS) -> "Key":
        """Opens a key below this one, or this one again, with the rights of a mask. FileNotFoundError where there is none."""
        text = _encoded(path)
        opened = c_uint64()
        key = Key(self.hive, self._joined(path), mask)
        self.hive._open_key(key, opened, c.library.zug_open_key, self, text, len(text), _word(mask), opened)
        return key

    def create(self, path: str, mask: int = c.ALL_ACCESS, security: bytes = b"") -> "Key":
        """Opens a key below this one, and makes those of the path that are missing, at most 32.

        The last that is made has the security descriptor, if one is given; all others have their parent's.
        """
        text = _encoded(path)
        security = _bytes_of(security)
        opened, disposition = c_uint64(), c_uint32()
        key = Key(self.hive, self._joined(path), mask)
        arguments = (text, len(text), _word(mask), security, len(security), opened, disposition)
        self.hive._create_key(key, opened, disposition, c.library.zug_create_key, self, *arguments)
        return key

    def subkeys(self) -> List[str]:
        """The names of the subkeys, in their order."""
        names: List[str] = []
        room = create_string_buffer(c.KEY_NAME_LIMIT)
        size, written = c_uint32(), c_uint64()
        while True:
            status = self.hive._ask(c.library.zug_enum_key, self, len(names), room, len(room), size, written)
            if status == c.NO_MORE_ITEMS:
                return names
            _told(status)
            names.append(_decoded(room, size.value))

    def subkey_at(self, index: int) -> Tuple[str, int]:
        """The name of the subkey at an index, and when it was last written. An Error with winerror 259 past the last."""
        room = create_string_buffer(c.KEY_NAME_LIMIT)
        size, written = c_uint32(), c_uint64()
        _told(self.hive._ask(c.library.zug_enum_key, self, _word(index), room, len(room), size, written))
        return _decoded(room, size.value), written.value

    def values(self) -> List[Tuple[str, Value]]:
        """The names of the values, each with what `key[name]` is, in the order in which they were added."""
        return [(name, from_data(data, kind)) for name, kind, data in self._raw_values()]

    def value_at(self, index: int) -> Tuple[str, int, bytes]:
        """The name, type and data of the value at an index. An Error with winerror 259 past the last."""
        room = _ValueRoom()
        _told(room.fill(self, _word(index)))
        return room.told()

    def value(self, name: str = "") -> Tuple[int, bytes]:
        """The type and the data of a value, as they are. FileNotFoundError where there is none. The empty name is the default value's."""
        text = _encoded(name)
        room = create_string_buffer(_FIRST_ROOM)
        kind, size = c_uint32(), c_uint32()
        while True:
            status = self.hive._ask(c.library.zug_query_value, self, text, len(text), room, len(room), kind, size)
            if status != c.MORE_DATA:
                break
            room = create_string_buffer(size.value)
        _told(status)
        return kind.value, string_at(room, size.value)

    def get(self, name: str = "", default: Any = None) -> Any:
        """What `key[name]` is, or the default where there is no such value."""
        try:
            return self[name]
        except Error as refused:
            if _is_absent(refused.winerror, name):
                return default
            raise

    def set(self, name: str, kind: int, data: bytes) -> None:
        """Sets a value to a type and data, as they are."""
        text = _encoded(name)
        data = _bytes_of(data)
        self.hive._change(c.library.zug_set_value, self, text, len(text), _word(kind), data, len(data))

    def delete_value(self, name: str = "") -> None:
        """Deletes a value. FileNotFoundError where there is none."""
        text = _encoded(name)
        self.hive._change(c.library.zug_delete_value, self, text, len(text))

    def delete(self, path: str) -> None:
        """Deletes a key below this one, with its values. PermissionError where it has subkeys."""
        text = _encoded(path)
        self.hive._change(c.library.zug_delete_key, self, text, len(text))

    def delete_tree(self, path: str = "") -> None:
        """Deletes a key below this one with all below it. Without a path this key stays, but without subkeys and values."""
        text = _encoded(path)
        self.hive._change(c.library.zug_delete_tree, self, text, len(text))

    @property
    def info(self) -> KeyInfo:
        """The key's numbers."""
        told = c.Info()
        _told(self.hive._ask(c.library.zug_query_info, self, told))
        return KeyInfo(*(getattr(told, field) for field, _kind in c.Info._fields_))

    @property
    def time(self) -> int:
        """When the key was last written, in units of 100 ns since 1601, in UTC."""
        return self.info.time

    @property
    def modified(self) -> datetime.datetime:
        """When the key was last written, to the microsecond. OverflowError after the year 9999."""
        since_1601 = datetime.timedelta(microseconds=self.time * 1_000_000 // _TICKS)
        return datetime.datetime(1601, 1, 1, tzinfo=datetime.timezone.utc) + since_1601

    @property
    def security(self) -> bytes:
        """The key's security descriptor, as it is. It may be set."""
        room = create_string_buffer(_FIRST_ROOM)
        size = c_uint32()
        while True:
            status = self.hive._ask(c.library.zug_get_security, self, room, len(room), size)
            if status != c.INSUFFICIENT_BUFFER:
                break
            room = create_string_buffer(size.value)
        _told(status)
        return string_at(room, size.value)

    @security.setter
    def security(self, descriptor: bytes) -> None:
        descriptor = _bytes_of(descriptor)
        self.hive._change(c.library.zug_set_security, self, descriptor, len(descriptor))

    def notify(self, kinds: int = c.FILTER_NAME | c.FILTER_LAST_SET, subtree: bool = False) -> int:
        """Asks for one notice of the next change of some kinds (FILTER_NAME, ..), with `subtree` also of keys below this one.

        The number that is told names the watch in `hive.notices()`. The watch ends with the key, too: it has to stay open.
        """
        watch = c_uint64()
        self.hive._watch(watch, c.library.zug_notify, self, _word(kinds), subtree, watch)
        return watch.value

    def close(self) -> None:
        """Closes the key. A second time nothing happens."""
        with self.hive._lock:
            handle = self._own_handle()
            if handle is not None:
                self.hive._forgotten.append(handle)
            # The root's own handle, and what stands for a deleted key's, are let go too.
            self._handle = None
            self.hive._close_forgotten()

    def __getitem__(self, name: str) -> Value:
        kind, data = self.value(name)
        return from_data(data, kind)

    def __setitem__(self, name: str, value: Any) -> None:
        """Sets a value: a text as REG_SZ, a number as REG_DWORD or REG_QWORD, a list of texts as REG_MULTI_SZ, bytes as REG_BINARY."""
        kind, value = kind_for(value)
        self.set(name, kind, to_data(value, kind))

    def __delitem__(self, name: str) -> None:
        self.delete_value(name)

    def __contains__(self, name: str) -> bool:
        text = _encoded(name)
        kind, size = c_uint32(), c_uint32()
        # A room of length 0 asks for type and size alone.
        status = self.hive._ask(c.library.zug_query_value, self, text, len(text), None, 0, kind, size)
        if _is_absent(status, name):
            return False
        _told(status)
        return True

    def __iter__(self) -> Iterator["Key"]:
        # The names are taken first, so that what is made or deleted meanwhile moves no index.
        for name in self.subkeys():
            try:
                child = self.open(name)
            except FileNotFoundError:
                continue
            yield child

    def __enter__(self) -> "Key":
        return self

    def __exit__(self, kind: Optional[Type[BaseException]], raised: Optional[BaseException], where: Optional[TracebackType]) -> None:
        self.close()

    def __del__(self) -> None:
        handle = self._own_handle()
        if handle is not None:
            self.hive._forgotten.append(handle)

    def __repr__(self) -> str:
        return f"<Key {self._path!r}>"

    def _raw_values(self) -> Iterator[Tuple[str, int, bytes]]:
        """The name, type and data of each value. One room is enough for all of them."""
        room = _ValueRoom()
        for index in itertools.count():
            status = room.fill(self, index)
            if status == c.NO_MORE_ITEMS:
                return
            _told(status)
            yield room.told()

    def _number(self) -> int:
        """The number of the key's handle. It is asked for under the hive's lock: a cut gives the root another one."""
        if self._handle is None:
            raise error(c.INVALID_HANDLE, "the key was closed")
        if self._handle == _DELETED:
            raise error(c.KEY_DELETED)
        return self.hive._root if self._handle == _ROOT else self._handle

    def _own_handle(self) -> Optional[int]:
        """The key's own handle, if it has one."""
        return None if self._handle is None or self._handle < 0 else self._handle

    def _joined(self, path: str) -> str:
        return "\\".join(part for part in (self._path, path) if part)


class _ValueRoom:
    """Where the library puts a value's name, type and data."""

    def __init__(self) -> None:
        self._name = create_string_buffer(_FIRST_NAME_ROOM)
        self._data = create_string_buffer(_FIRST_ROOM)
        self._name_size, self._kind, self._size = c_uint32(), c_uint32(), c_uint32()

    def fill(self, key: Key, index: int) -> int:
        """Asks a key for the value at an index, with more room as long as there isn't enough, and answers the status."""
        while True:
            names = (self._name, len(self._name), self._name_size)
            data = (self._data, len(self._data), self._kind, self._size)
            status = key.hive._ask(c.library.zug_enum_value, key, index, *names, *data)
            if status != c.MORE_DATA:
                return status
            # Which of the two is too short isn't told, nor the name's size.
            self._name = create_string_buffer(c.VALUE_NAME_LIMIT)
            self._data = create_string_buffer(max(self._size.value, len(self._data)))

    def told(self) -> Tuple[str, int, bytes]:
        return _decoded(self._name, self._name_size.value), self._kind.value, string_at(self._data, self._size.value)


def _told(status: int) -> None:
    """Raises the exception of a status that isn't 0."""
    if status != c.SUCCESS:
        raise error(status)


def _word(number: int) -> int:
    """A number that the library is given. OverflowError where it has more than 32 bits, or is negative."""
    if not 0 <= number < _WORDS:
        raise OverflowError(f"{number} is no number of 32 bits")
    return number


def _moment_of(clock: Callable[[], int]) -> int:
    """The clock's moment. OverflowError where it is before 1601, or has more than 64 bits."""
    moment = clock()
    if not 0 <= moment < _MOMENTS:
        raise OverflowError(f"the clock's moment {moment} is no number of 64 bits")
    return moment


def _bytes_of(data: Any) -> bytes:
    # bytes() would take a number too, for so many zeros. What is derived of bytes may tell another length than it has.
    return data if type(data) is bytes else memoryview(data).tobytes()


def _encoded(text: str) -> bytes:
    # The library refuses what isn't ASCII, in its own order of refusals, so it is handed all that a text may have.
    return str.encode(text, "utf-8", "surrogatepass")


def _is_absent(status: Optional[int], name: str) -> bool:
    """Whether an answer to a question for a value says that there is none of the name. None has letters past ASCII."""
    return status == c.FILE_NOT_FOUND or status == c.INVALID_PARAMETER and not name.isascii()


def _decoded(room: Any, size: int) -> str:
    return string_at(room, size).decode("ascii")


def _copy(source: Key, target: Key) -> None:
    """Copies a key's values, and all that is below it, to a key of another hive."""
    hive = target.hive
    written = source.time
    _copy_values(source, target)
    for child in source:
        with child, target.create(child.name, security=child.security) as copied:
            _copy(child, copied)
    # Last, since each call before set the time too.
    hive.clock = lambda: written
    target.security = source.security


def _copy_values(source: Key, target: Key) -> None:
    for name, kind, data in source._raw_values():
        target.set(name, kind, data)
