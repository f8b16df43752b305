"""Scripts of the tool drawn at random, the same ones of each seed. They guess what their hive has, so that most lines meet something."""
import random

ALL = 0xF003F
MASKS = [ALL] * 30 + [0, 1, 2, 8, 9, 0x10, 0x20000, 0x40000, 0x10009, 0x1000B, 0x3003F]
BAD_MASKS = [0x40, 0x100, 0x100000, 0xFFFFFFFF]
FILTERS = [1, 4, 4, 5, 8, 2, 15, 0x10000004]
BAD_FILTERS = [0, 16, 20, 0x10000000, 0xFFFFFFFF]
SESSIONS = [0, 0, 1, 63]
KEYS = ["A", "a", "AB", "aB", "b", "B"] * 3 + ["Key", "kEY", "with%20space", "%7f", "L" * 255]
VALUES = ["", "v", "V", "Other", "oTHER", "%09", "a%2", "%", "\\", "N" * 300]
BAD_PATHS = ["\\", "A\\", "\\A", "A\\\\B", "%00", "%80", "A\\%ff", "K" * 256, "\\".join("x" * 513)]
BAD_VALUES = ["%00", "v%80", "%FF"]
KINDS = [0, 1, 3, 4, 7, 11, 0xFFFFFFFF]
INDEXES = [0, 0, 0, 1, 2, 0xFFFFFFFF]
ROOMS = [0, 1, 2, 3, 4, 5, 8, 20, 255, 5_000, 20_000, 0xFFFFFFFF]
SIZES, LARGE = [0, 1, 3, 4, 4, 5, 8, 20], [100, 5_000, 16_344, 16_345, 40_000]
MOMENTS = [0, 1, 133_000_000_000_000_000, 2**64 - 1]
# Lines of another form, and lines without a reply.
BAD_LINES = ["frob", "at", "at -1", "at 18446744073709551616", "as 64", "hive 1", " root 1", "root  1", "root 1 ", "ROOT 1", "root", "root 4294967296",
             "open 0 A 1", "create 0 =A", "create 0 =A 1 x 1", "set 0 =v 4 x0", "set 0 =v 4 xzz", "set 0 =v 4", "notify 0 4 01", "notify 0 4",
             "close", "close x", "query 0 =v", "query 0 v 4", "enumkey 0 0 -", "enumvalue 0 0 - 4", "info", "getsec 0 -", "notice 1", "close 0 "]
SILENT = ["", "#", "# root 983103", "hive 0", "hive 00", "at 7", "at 00"]


class Handle:
    """A handle as it is guessed: `path` is none once its key is gone."""

    def __init__(self, session, path, mask):
        self.session, self.path, self.mask = session, path, mask


class Script:
    """A script of about so many lines."""

    def __init__(self, seed, count=30):
        self.chance, self.lines = random.Random(seed), []
        self.session, self.entries, self.watches = 0, 0, 0
        self.keys, self.handles = {(): set()}, {}
        self.opened(f"root {ALL}", (), ALL)
        for _ in range(3):
            self.create()
        while len(self.lines) < count:
            self.draw()

    def text(self):
        return "".join(f"{it}\n" for it in self.lines).encode()

    # ---- What is drawn

    def one_of(self, many):
        return self.chance.choice(many)

    def is_rare(self, times):
        """Whether something happens that does so once in so many times."""
        return self.chance.randrange(times) == 0

    def mask(self):
        return self.one_of(BAD_MASKS if self.is_rare(25) else MASKS)

    def handle(self):
        """The number of a handle, mostly of one of the session that is set, and the handle where it is one of use there."""
        if self.is_rare(25):
            return self.one_of([self.entries, 999_999, 2**64 - 1]), None
        own = [number for number, it in self.handles.items() if it.session == self.session]
        dead = [it for it in own if self.handles[it].path is None]
        alive = [it for it in own if self.handles[it].path is not None]
        of_others = self.is_rare(25) and list(self.handles)
        number = self.one_of(of_others or (dead if self.is_rare(4) else []) or alive or [0])
        found = self.handles.get(number)
        return number, found if found and found.session == self.session and found.path is not None else None

    def path(self, handle, least=0):
        """The word of a path without its mark, mostly of a key that is there, and its names, folded, or none where it is a bad one."""
        if self.is_rare(25):
            return self.one_of(BAD_PATHS), None
        above = handle.path if handle else ()
        known = [it.path for it in self.handles.values() if it.path is not None] if self.is_rare(2) else list(self.keys)
        there = [it[len(above):] for it in known if it[: len(above)] == above and len(it) - len(above) >= least]
        if there and not self.is_rare(3):
            names = self.one_of(there)
        else:
            names = [self.one_of(KEYS) for _ in range(self.chance.randint(least, least + 1 + self.is_rare(4)))]
        return "\\".join(names), tuple(it.upper() for it in names)

    def value(self, handle=None):
        """The word of a value's name without its mark, mostly of a value that is there."""
        if self.is_rare(25):
            return self.one_of(BAD_VALUES + ["N" * 16_384] * self.is_rare(8))
        there = sorted(self.keys[handle.path]) if handle else []
        return self.one_of(VALUES if not there or self.is_rare(4) else there)

    def data(self, sizes):
        """The word of data of one of these sizes."""
        return "x" + self.chance.randbytes(self.one_of(sizes)).hex()

    def descriptor(self):
        return self.data([0, 65_536] if self.is_rare(25) else [1, 4, 20, 20, 200])

    def room(self):
        return self.one_of(["-", *ROOMS])

    # ---- What is guessed

    def accept(self, line):
        """Appends a change that should be accepted, and answers its number."""
        self.lines.append(line)
        self.entries += 1
        return self.entries - 1

    def opened(self, line, path, mask):
        self.handles[self.accept(line)] = Handle(self.session, path, mask)

    def refuse(self, line):
        self.lines.append(line)

    def gone(self, path, is_kept=False):
        """A key is gone with all below it, or these alone."""
        for key in [it for it in self.keys if it[: len(path)] == path and not (is_kept and it == path)]:
            del self.keys[key]
            for it in self.handles.values():
                if it.path == key:
                    it.path = None

    # ---- The lines

    def root(self):
        mask = self.mask()
        if mask & ~ALL:
            return self.refuse(f"root {mask}")
        return self.opened(f"root {mask}", (), mask)

    def open(self):
        number, handle = self.handle()
        (word, names), mask = self.path(handle), self.mask()
        line = f"open {number} ={word} {mask}"
        if handle and names is not None and handle.path + names in self.keys and not mask & ~ALL:
            return self.opened(line, handle.path + names, mask)
        return self.refuse(line)

    def create(self):
        number, handle = self.handle()
        (word, names), mask = self.path(handle), self.mask()
        if self.is_rare(40):
            word, names = "\\".join(f"deep{it}" for it in range(33)), None
        own = f" {self.descriptor()}" if self.is_rare(3) else ""
        line = f"create {number} ={word} {mask}{own}"
        if not handle or names is None or mask & ~ALL or len(own) == 2 or len(own) > 100_000:
            return self.refuse(line)
        for length in range(1, len(names) + 1):
            self.keys.setdefault(handle.path + names[:length], set())
        return self.opened(line, handle.path + names, mask)

    def set(self):
        number, handle = self.handle()
        value = self.value(handle)
        data = "x" + "00" * 1_048_577 if self.is_rare(2_000) else self.data(LARGE if self.is_rare(25) else SIZES)
        line = f"set {number} ={value} {self.one_of(KINDS)} {data}"
        if not handle or not handle.mask & 2 or value in BAD_VALUES or len(value) > 16_000 or len(data) > 2_000_000:
            return self.refuse(line)
        self.keys[handle.path].add(value.upper())
        return self.accept(line)

    def delvalue(self):
        number, handle = self.handle()
        value = self.value(handle)
        line = f"delvalue {number} ={value}"
        if not handle or not handle.mask & 2 or value.upper() not in self.keys[handle.path]:
            return self.refuse(line)
        self.keys[handle.path].discard(value.upper())
        return self.accept(line)

    def delkey(self):
        number, handle = self.handle()
        word, names = self.path(handle, 1)
        line = f"delkey {number} ={word}"
        path = handle.path + names if handle and names else None
        if path not in self.keys or any(len(it) > len(path) and it[: len(path)] == path for it in self.keys):
            return self.refuse(line)
        self.gone(path)
        return self.accept(line)

    def deltree(self):
        number, handle = self.handle()
        word, names = self.path(handle, not self.is_rare(4))
        line = f"deltree {number} ={word}"
        need = 0x10009 if names else 0x1000B
        path = handle.path + names if handle and names is not None and handle.mask & need == need else None
        if path not in self.keys:
            return self.refuse(line)
        self.gone(path, not names)
        if not names:
            self.keys[path].clear()
        return self.accept(line)

    def setsec(self):
        (number, handle), own = self.handle(), self.descriptor()
        line = f"setsec {number} {own}"
        is_taken = handle and handle.mask & 0x40000 and 1 < len(own) < 100_000
        return self.accept(line) if is_taken else self.refuse(line)

    def notify(self):
        (number, handle), filter = self.handle(), self.one_of(BAD_FILTERS if self.is_rare(25) else FILTERS)
        line = f"notify {number} {filter} {self.one_of([0, 1])}"
        if not handle or not handle.mask & 0x10 or filter in BAD_FILTERS:
            return self.refuse(line)
        self.watches += 1
        return self.accept(line)

    def close(self):
        (number, _), there = self.handle(), self.handles
        if number not in there or there[number].session != self.session:
            return self.refuse(f"close {number}")
        del there[number]
        return self.accept(f"close {number}")

    def query(self):
        number, handle = self.handle()
        self.refuse(f"query {number} ={self.value(handle)} {self.room()}")

    def enumkey(self):
        self.refuse(f"enumkey {self.handle()[0]} {self.one_of(INDEXES)} {self.one_of(ROOMS)}")

    def enumvalue(self):
        self.refuse(f"enumvalue {self.handle()[0]} {self.one_of(INDEXES)} {self.one_of(ROOMS)} {self.room()}")

    def info(self):
        self.refuse(f"info {self.handle()[0]}")

    def getsec(self):
        self.refuse(f"getsec {self.handle()[0]} {self.one_of(ROOMS)}")

    def notice(self):
        self.refuse("notice")

    def at(self):
        self.refuse(f"at {self.one_of(MOMENTS)}")

    def session_line(self):
        self.session = self.one_of(SESSIONS)
        self.refuse(f"as {self.session}")
        if self.is_rare(2):
            self.root()

    def other(self):
        self.refuse(self.one_of(SILENT if self.is_rare(3) else BAD_LINES))

    def draw(self):
        """A line of some kind. Notices are taken where there may be some."""
        times = {self.root: 2, self.open: 7, self.create: 12, self.set: 16, self.delvalue: 4, self.delkey: 8, self.deltree: 4, self.setsec: 4,
                 self.notify: 8, self.close: 4, self.query: 9, self.enumkey: 6, self.enumvalue: 9, self.info: 4, self.getsec: 5,
                 self.notice: 8 if self.watches else 1, self.at: 2, self.session_line: 3, self.other: 3}
        self.chance.choices(list(times), list(times.values()))[0]()
