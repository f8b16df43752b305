"""A hive that answers the lines of a script, written from docs/RULES.md in the plainest words, to compare the tool with.

Keys stand in dicts below each other, values in a dict of their key. Whether a change ends a watch is asked of each watch, and for it of
each event. Left out are want of memory, the space in the bins, and the room of the journal, which no script of a million lines fills.
"""
import re
from collections import deque

ALL_RIGHTS = 0xF003F
QUERY_VALUE, SET_VALUE, ENUMERATE_SUB_KEYS, NOTIFY, READ_CONTROL, WRITE_DAC = 1, 2, 8, 0x10, 0x20000, 0x40000
# What the deletion of a whole tree asks, and what it asks where the handle's key itself stays.
DELETE_TREE, EMPTY_KEY = 0x10009, 0x1000B
# The kinds of events, the bits of which a filter has one at least, and the one that it may have beside them.
NAME, LAST_SET, SECURITY = 1, 4, 2 | 8
KINDS, THREAD_AGNOSTIC = 15, 0x10000000
# The most names of a path, keys that a call makes, subkeys and values of a key, bytes of data and of a descriptor; and the most handles and
# pending watches of a session.
NAMES, MADE, SUBKEYS, VALUES, DATA, DESCRIPTOR = 512, 32, 60_000, 16_384, 1_048_576, 65_535
HANDLES, WATCHES = 16_384, 4_096
FRESH_DESCRIPTOR = bytes.fromhex("0100048000000000000000000000000000000000")
KEY_NAME = re.compile(rb"[\x01-\x5b\x5d-\x7f]{1,255}")
VALUE_NAME = re.compile(rb"[\x01-\x7f]{0,16383}")


class Bad(Exception):
    """A line has another form."""


class Refused(Exception):
    """A call is refused, with this status."""


# ---- Words of a line


def number(bits):
    """What reads a number of so many bits."""

    def read(word):
        digits = word.lstrip(b"0") or word[-1:]
        if not word.isdigit() or len(digits) > 20 or int(digits) >= 1 << bits:
            raise Bad
        return int(digits)

    return read


def name_word(word):
    if word[:1] != b"=":
        raise Bad
    return re.sub(rb"%([0-9A-Fa-f]{2})", lambda it: bytes([int(it[1], 16)]), word[1:])


def data_word(word):
    if not re.fullmatch(rb"x(?:[0-9A-Fa-f]{2})*", word):
        raise Bad
    return bytes.fromhex(word[1:].decode())


def room_word(word):
    return None if word == b"-" else number(32)(word)


def subtree_word(word):
    if word not in (b"0", b"1"):
        raise Bad
    return word == b"1"


def told_name(name):
    return "=" + "".join(chr(it) if 0x21 <= it <= 0x7E and it != ord("%") else f"%{it:02X}" for it in name)


def told_value(kind, data, room):
    return f"type {kind} size {len(data)}" + ("" if room is None else f" x{data.hex()}")


# ---- What a hive has


class Key:
    """A key: its place in the tree, and what it has. `path` has the folded names from the root on."""

    def __init__(self, above, name, time, descriptor):
        self.above, self.name, self.time, self.descriptor = above, name, time, descriptor
        self.path = above.path + (name.upper(),) if above else ()
        self.subkeys, self.values, self.is_there = {}, {}, True


class Handle:
    def __init__(self, mask, key):
        self.mask, self.key = mask, key


class Watch:
    """A notification that is pending."""

    def __init__(self, handle, key, filter, subtree):
        self.handle, self.key, self.filter, self.subtree = handle, key, filter, subtree

    def why(self, events, closed):
        """Why a change ends it, which has these events, each some bits and a path, and closes this handle, if any."""
        if not self.key.is_there:
            return "gone"
        if self.handle == closed:
            return "closed"
        return "matched" if any(self.is_hit(*it) for it in events) else ""

    def is_hit(self, bits, path):
        own = self.key.path
        return bits & self.filter != 0 and (path == own or self.subtree and path[: len(own)] == own)


class Session:
    """A session's open handles and pending watches, by their numbers, and the notices that it hasn't taken."""

    def __init__(self):
        self.handles, self.watches, self.notices = {}, {}, deque()

    def told(self, entry, events, closed):
        """Ends the watches that an entry ends, each with a notice."""
        for number, watch in list(self.watches.items()):
            reason = watch.why(events, closed)
            if reason:
                del self.watches[number]
                self.notices.append(f"notice {number} {entry} {reason}")


# ---- What is tested


def test(is_right, status):
    """Refuses the call with a status where something isn't right."""
    if not is_right:
        raise Refused(status)


def is_mask(mask):
    return mask & ~ALL_RIGHTS == 0


def is_descriptor(data):
    return 1 <= len(data) <= DESCRIPTOR


def names_of(path):
    """The names of a path. The call is refused where one is bad, or there are too many."""
    names = path.split(b"\\") if path else []
    test(len(names) <= NAMES and all(KEY_NAME.fullmatch(it) for it in names), 87)
    return names


def found(key, names):
    """The key at the end of a path, or none."""
    for it in names:
        key = key and key.subkeys.get(it.upper())
    return key


def missing(key, names):
    """The last key of a path that is there, and the names behind it."""
    for at, it in enumerate(names):
        if it.upper() not in key.subkeys:
            return key, names[at:]
        key = key.subkeys[it.upper()]
    return key, []


def whole(key):
    """A key and all below it, each behind the one above it."""
    keys = [key]
    for it in keys:
        keys += it.subkeys.values()
    return keys


class Hive:
    """A fresh hive, and what answers the calls on it. Each call's tests stand in the order of refusals."""

    def __init__(self):
        self.root = Key(None, b"ROOT", 0, FRESH_DESCRIPTOR)
        self.sessions = [Session() for _ in range(64)]
        self.session, self.moment, self.entries = self.sessions[0], 0, 0

    def reply(self, line):
        """The reply to a line without its LF; none where it has none."""
        if not line or line.startswith(b"#"):
            return None
        verb, *words = line.split(b" ")
        call, readers, least = LINES.get(verb, (None, [], 0))
        try:
            if not call or not least <= len(words) <= len(readers):
                raise Bad
            return call(self, *[read(word) for read, word in zip(readers, words)])
        except Bad:
            return "bad"
        except Refused as why:
            return str(why)

    # ---- Tests and steps of several calls

    def handle(self, number):
        """The handle of a call, whose key is there."""
        handle = self.session.handles.get(number)
        test(handle, 6)
        test(handle.key.is_there, 1018)
        return handle

    def test_handles(self):
        test(len(self.session.handles) < HANDLES, 1450)

    def accept(self, events=(), closed=None):
        """Enters a change with its events, or one that closes a handle, in the journal, and answers its number."""
        if events or closed is not None:
            for it in self.sessions:
                it.told(self.entries, events, closed)
        self.entries += 1
        return self.entries - 1

    def opened(self, mask, key, events=()):
        """Accepts a change that opens a handle."""
        made = self.accept(events)
        self.session.handles[made] = Handle(mask, key)
        return f"0 handle {made}"

    def removed(self, keys):
        """Removes keys, and answers the events."""
        for it in keys:
            del it.above.subkeys[it.name.upper()]
            it.is_there, it.above.time = False, self.moment
        return [(NAME, it.above.path) for it in keys]

    # ---- Keys

    def open_root(self, mask):
        test(is_mask(mask), 87)
        self.test_handles()
        return self.opened(mask, self.root)

    def open(self, number, path, mask):
        handle, names = self.handle(number), names_of(path)
        test(is_mask(mask), 87)
        self.test_handles()
        key = found(handle.key, names)
        test(key, 2)
        return self.opened(mask, key)

    def create(self, number, path, mask, descriptor=None):
        handle, names = self.handle(number), names_of(path)
        test(is_mask(mask) and (descriptor is None or is_descriptor(descriptor)), 87)
        self.test_handles()
        key, made = missing(handle.key, names)
        if made:
            test(len(made) <= MADE and len(key.path) + len(made) <= NAMES and len(key.subkeys) < SUBKEYS, 1450)
        events = []
        for it in made:
            events.append((NAME, key.path))
            key.time = self.moment
            key.subkeys[it.upper()] = Key(key, it, self.moment, key.descriptor)
            key = key.subkeys[it.upper()]
        if made and descriptor is not None:
            key.descriptor = descriptor
        return f"{self.opened(mask, key, events)} disposition {1 if made else 2}"

    def delete_key(self, number, path):
        handle, names = self.handle(number), names_of(path)
        test(names, 87)
        key = found(handle.key, names)
        test(key, 2)
        test(not key.subkeys, 5)
        self.accept(self.removed([key]))
        return "0"

    def delete_tree(self, number, path):
        handle, names = self.handle(number), names_of(path)
        asked = DELETE_TREE if names else EMPTY_KEY
        test(handle.mask & asked == asked, 5)
        key = found(handle.key, names)
        test(key, 2)
        self.accept(self.removed(whole(key)) if names else self.emptied(key))
        return "0"

    def emptied(self, key):
        """Takes a key's subkeys and values, and answers the events."""
        events = self.removed(whole(key)[1:])
        if key.values:
            events.append((LAST_SET, key.path))
            key.time = self.moment
            key.values.clear()
        return events

    def enum_key(self, number, index, room):
        handle = self.handle(number)
        test(handle.mask & ENUMERATE_SUB_KEYS, 5)
        subkeys = handle.key.subkeys
        test(index < len(subkeys), 259)
        key = subkeys[sorted(subkeys)[index]]
        return f"0 {told_name(key.name)} time {key.time}" if len(key.name) <= room else f"234 size {len(key.name)}"

    def info(self, number):
        handle = self.handle(number)
        test(handle.mask & QUERY_VALUE, 5)
        key = handle.key
        values = key.values.values()
        subkeys = f"subkeys {len(key.subkeys)} longest {max(map(len, key.subkeys), default=0)}"
        names = f"values {len(values)} longest {max(map(len, key.values), default=0)}"
        largest = max((len(data) for _, _, data in values), default=0)
        return f"0 {subkeys} {names} largest {largest} security {len(key.descriptor)} time {key.time}"

    # ---- Values

    def set_value(self, number, name, kind, data):
        handle = self.handle(number)
        test(VALUE_NAME.fullmatch(name) and len(data) <= DATA, 87)
        test(handle.mask & SET_VALUE, 5)
        key, folded = handle.key, name.upper()
        test(folded in key.values or len(key.values) < VALUES, 1450)
        first, _, _ = key.values.get(folded, (name, 0, b""))
        key.values[folded], key.time = (first, kind, data), self.moment
        self.accept([(LAST_SET, key.path)])
        return "0"

    def delete_value(self, number, name):
        handle = self.handle(number)
        test(VALUE_NAME.fullmatch(name), 87)
        test(handle.mask & SET_VALUE, 5)
        key = handle.key
        test(name.upper() in key.values, 2)
        del key.values[name.upper()]
        key.time = self.moment
        self.accept([(LAST_SET, key.path)])
        return "0"

    def query_value(self, number, name, room):
        handle = self.handle(number)
        test(VALUE_NAME.fullmatch(name), 87)
        test(handle.mask & QUERY_VALUE, 5)
        test(name.upper() in handle.key.values, 2)
        _, kind, data = handle.key.values[name.upper()]
        is_short = room is not None and room < len(data)
        return f"234 {told_value(kind, data, None)}" if is_short else f"0 {told_value(kind, data, room)}"

    def enum_value(self, number, index, name_room, room):
        handle = self.handle(number)
        test(handle.mask & QUERY_VALUE, 5)
        test(index < len(handle.key.values), 259)
        name, kind, data = list(handle.key.values.values())[index]
        is_short = name_room < len(name) or room is not None and room < len(data)
        return f"234 {told_value(kind, data, None)}" if is_short else f"0 {told_name(name)} {told_value(kind, data, room)}"

    # ---- Descriptors

    def set_security(self, number, descriptor):
        handle = self.handle(number)
        test(is_descriptor(descriptor), 87)
        test(handle.mask & WRITE_DAC, 5)
        key = handle.key
        key.descriptor, key.time = descriptor, self.moment
        self.accept([(SECURITY, key.path)])
        return "0"

    def get_security(self, number, room):
        handle = self.handle(number)
        test(handle.mask & READ_CONTROL, 5)
        descriptor = handle.key.descriptor
        return f"0 x{descriptor.hex()}" if len(descriptor) <= room else f"122 size {len(descriptor)}"

    # ---- Notifications, handles, settings

    def notify(self, number, filter, subtree):
        handle = self.handle(number)
        test(filter & KINDS and filter & ~(KINDS | THREAD_AGNOSTIC) == 0, 87)
        test(handle.mask & NOTIFY, 5)
        test(len(self.session.watches) < WATCHES, 1450)
        made = self.accept()
        self.session.watches[made] = Watch(number, handle.key, filter, subtree)
        return f"0 watch {made}"

    def notice(self):
        return self.session.notices.popleft() if self.session.notices else "notice none"

    def close(self, number):
        test(number in self.session.handles, 6)
        del self.session.handles[number]
        self.accept(closed=number)
        return "0"

    def at(self, moment):
        self.moment = moment

    def as_session(self, number):
        self.session = self.sessions[number]

    def on_hive(self, _):
        pass


# Each line's call, what reads its words, and how many there are at least.
LINES = {
    b"root": (Hive.open_root, [number(32)], 1),
    b"open": (Hive.open, [number(64), name_word, number(32)], 3),
    b"create": (Hive.create, [number(64), name_word, number(32), data_word], 3),
    b"delkey": (Hive.delete_key, [number(64), name_word], 2),
    b"deltree": (Hive.delete_tree, [number(64), name_word], 2),
    b"setsec": (Hive.set_security, [number(64), data_word], 2),
    b"getsec": (Hive.get_security, [number(64), number(32)], 2),
    b"notify": (Hive.notify, [number(64), number(32), subtree_word], 3),
    b"close": (Hive.close, [number(64)], 1),
    b"set": (Hive.set_value, [number(64), name_word, number(32), data_word], 4),
    b"delvalue": (Hive.delete_value, [number(64), name_word], 2),
    b"query": (Hive.query_value, [number(64), name_word, room_word], 3),
    b"enumkey": (Hive.enum_key, [number(64), number(32), number(32)], 3),
    b"enumvalue": (Hive.enum_value, [number(64), number(32), number(32), room_word], 4),
    b"info": (Hive.info, [number(64)], 1),
    b"notice": (Hive.notice, [], 0),
    b"at": (Hive.at, [number(64)], 1),
    b"as": (Hive.as_session, [number(6)], 1),
    b"hive": (Hive.on_hive, [number(0)], 1),
}
