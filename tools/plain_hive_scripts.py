"""Scripts drawn at random beside a plain hive that answers them: of watches, and of many keys below one key."""
import random
from collections import Counter

from plain_hive import ALL_RIGHTS, Hive

SESSIONS = 3
# How many watches are pending at most, how many lines are drawn once there have been as many, and how many notices come of each reason at
# least: where there are fewer, as many lines more are drawn.
WATCHES, LINES, NOTICES = 200, 1_500, 5
# Spellings of three names, of which one is a front of another.
NAMES = ["A", "AB", "B", "a", "aB", "b"]
# Every kind of filter, and some that are refused.
FILTERS = [1, 2, 4, 8, 5, 10, 15, 0x10000004, 0x1000000F, 0, 0x10000000, 20]
# How many names of keys there are, how many calls a batch has, and of eight calls of each batch how many make a key.
KEYS, CALLS, MAKING = 2_000, 1_500, [7, 7, 7, 1, 1, 1, 7, 4]


class Drawn:
    """A script so far, with the hive that answers it, and its replies: none for a line without one."""

    marks = ()

    def __init__(self, seed):
        self.chance, self.hive = random.Random(seed), Hive()
        self.lines, self.replies = [], []

    def add(self, line):
        """Appends a line, and answers its reply."""
        self.lines.append(line)
        self.replies.append(self.hive.reply(line.encode()))
        return self.replies[-1]

    def is_rare(self, times):
        """Whether something happens that does so once in so many times."""
        return self.chance.randrange(times) == 0


class WatchScript(Drawn):
    """A script of changes, notifications and notices by some sessions, on keys of few names."""

    def __init__(self, seed):
        super().__init__(seed)
        self.session, self.notices = 0, Counter()
        self.begin()
        while min(self.notices[it] for it in ("matched", "gone", "closed")) < NOTICES:
            for _ in range(LINES):
                self.draw()
            for it in range(SESSIONS):
                self.take_all(it)

    def begin(self):
        """Opens a root for each session, makes some keys, and asks for notifications until there are as many as there may be."""
        for session in range(SESSIONS):
            self.go_on_in(session)
            self.root()
        for _ in range(40):
            self.create()
        while self.pending() < WATCHES:
            self.notify()

    def draw(self):
        """A line of some kind, or two with the session's."""
        if self.pending() < WATCHES and self.is_rare(2):
            return self.notify()
        times = {self.value: 52, self.create: 40, self.open: 16, self.setsec: 8, self.delkey: 24, self.deltree: 3, self.close: 9,
                 self.notice: 104}
        return self.chance.choices(list(times), list(times.values()))[0]()

    def take_all(self, session):
        """Takes a session's notices until there is none."""
        while self.notice(session) != "notice none":
            pass

    def pending(self):
        return sum(len(it.watches) for it in self.hive.sessions)

    # ---- What is drawn

    def go_on_in(self, session):
        if session != self.session:
            self.session = session
            self.add(f"as {session}")

    def handle(self):
        """The number of an open handle, mostly of one whose key is there, and mostly in its session. Where none is found the root is
        opened."""
        sessions = enumerate(self.hive.sessions[:SESSIONS])
        there = [(session, number, handle.key.is_there) for session, it in sessions for number, handle in it.handles.items()]
        for session, number, is_there in self.chance.choices(there, k=8) if there else []:
            if is_there or self.is_rare(4):
                if not self.is_rare(16):
                    self.go_on_in(session)
                return number
        self.root()
        return 0

    def path(self, least):
        """The word of a path of so many names at least and at most one more."""
        return "=" + "\\".join(self.chance.choice(NAMES) for _ in range(least + self.chance.randrange(2)))

    # ---- The lines

    def root(self):
        self.add(f"root {ALL_RIGHTS}")

    def open(self):
        self.add(f"open {self.handle()} {self.path(0)} {ALL_RIGHTS}")

    def create(self):
        self.add(f"create {self.handle()} {self.path(1)} {ALL_RIGHTS}")

    def delkey(self):
        self.add(f"delkey {self.handle()} {self.path(1)}")

    def deltree(self):
        self.add(f"deltree {self.handle()} {self.path(0)}")

    def value(self):
        handle, name = self.handle(), self.chance.randrange(2)
        self.add(f"delvalue {handle} =v{name}" if self.is_rare(4) else f"set {handle} =V{name} 4 x01")

    def setsec(self):
        self.add(f"setsec {self.handle()} x01")

    def notify(self):
        self.add(f"notify {self.handle()} {self.chance.choice(FILTERS)} {self.chance.randrange(2)}")

    def close(self):
        self.add(f"close {self.handle()}")

    def notice(self, session=None):
        """Takes a session's next notice, which is drawn where none is named."""
        self.go_on_in(self.chance.randrange(SESSIONS) if session is None else session)
        reply = self.add("notice")
        self.notices[reply.split(" ")[-1]] += 1
        return reply


class KeyScript(Drawn):
    """A script that makes and deletes keys below one key, and asks for all behind each batch: they become many, few, many again and none,
    and their parent goes, too. `marks` has behind how many lines there are which names, by their order; none without the parent."""

    def __init__(self, seed):
        super().__init__(seed)
        self.marks = []
        self.add(f"root {ALL_RIGHTS}")
        self.add(f"create 0 =Keys {ALL_RIGHTS}")
        for making in MAKING:
            self.run_batch(making)
            self.ask_for_all()
            self.mark()
        for it in range(KEYS):
            self.delete(it)
        self.mark()
        self.add("delkey 0 =Keys")
        self.mark()

    def subkeys(self):
        """The keys below the parent by their folded names; none without the parent."""
        parent = self.hive.root.subkeys.get(b"KEYS")
        return parent and parent.subkeys

    def mark(self):
        keys = self.subkeys()
        self.marks.append((len(self.lines), None if keys is None else [keys[it].name for it in sorted(keys)]))

    def spelt(self, number):
        return self.chance.choice(["Key", "KEY", "key"]) + str(number)

    def make(self, number):
        """Makes the key of a number, new or not, and closes its handle."""
        handle = self.add(f"create 1 ={self.spelt(number)} {ALL_RIGHTS}").split(" ")[2]
        self.add(f"close {handle}")

    def delete(self, number):
        self.add(f"delkey 1 ={self.spelt(number)}")

    def run_batch(self, making):
        """Makes and deletes keys at random: of eight calls so many make one."""
        for _ in range(CALLS):
            number = self.chance.randrange(KEYS)
            if self.chance.randrange(8) < making:
                self.make(number)
            else:
                self.delete(number)

    def ask_for_all(self):
        """Asks for each key, and for one more."""
        for index in range(len(self.subkeys()) + 1):
            self.add(f"enumkey 1 {index} 255")
