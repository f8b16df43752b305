"""Images that are made to take long, each beside an honest one of its size, and how long the tool takes with them."""
import os
import struct
import subprocess
import tempfile
import time

NONE = 0xFFFFFFFF
# How many bytes of an honest image each key takes.
HONEST_KEY = 240
# How often each image is checked and dumped, in turn with the honest one: the fastest counts.
TURNS = 15
DESCRIPTOR = bytes.fromhex("0100048000000000000000000000000000000000")


class Draft:
    """The bins of an image: one bin, of which all cells are allocated."""

    def __init__(self):
        self.bins = bytearray(32)

    def cell(self, content):
        """Appends a cell, and answers its offset."""
        offset = len(self.bins)
        size = (len(content) + 11) // 8 * 8
        self.bins += struct.pack("<i", -size) + content
        self.bins += bytes(offset + size - len(self.bins))
        return offset

    def key(self, name, security, lists=NONE, values=0, members=NONE):
        head = struct.pack("<2sHQIII4xI4xIIII20xHH", b"nk", 0x20, 0, 0, NONE, lists != NONE, lists, values, members, security, NONE, len(name), 0)
        return self.cell(head + name)

    def value(self, name, size, at):
        return self.cell(struct.pack("<2sHIIIH2x", b"vk", len(name), size, at, 3, 1) + name)

    def security(self, descriptor):
        return self.cell(struct.pack("<2sH4I", b"sk", 0, 0, 0, 0, len(descriptor)) + descriptor)

    def row(self, offsets):
        return self.cell(struct.pack(f"<{len(offsets)}I", *offsets))

    def list(self, letters, offsets):
        hint = bytes(4) if letters in (b"lf", b"lh") else b""
        return self.cell(letters + struct.pack("<H", len(offsets)) + b"".join(struct.pack("<I", it) + hint for it in offsets))

    def chain(self, name, length, security, below=NONE):
        """A chain of keys of one name; the first one's offset."""
        key = self.key(name, security, below)
        for _ in range(1, length):
            key = self.key(name, security, self.list(b"li", [key]))
        return key

    def image(self, root, minor=5):
        used = len(self.bins)
        size = -(-used // 4096) * 4096
        if used < size:
            self.bins += struct.pack("<I", size - used)
            self.bins += bytes(size - len(self.bins))
        struct.pack_into("<4sII", self.bins, 0, b"hbin", 0, size)
        block = bytearray(4096)
        struct.pack_into("<4sIIQ7I", block, 0, b"regf", 1, 1, 0, 1, minor, 0, 1, root, size, 1)
        total = 0
        for word in struct.unpack("<127I", block[:508]):
            total ^= word
        struct.pack_into("<I", block, 508, {0: 1, NONE: NONE - 1}.get(total, total))
        return bytes(block + self.bins)


def digits(number):
    return b"%08d" % number


def chains(draft, security, count):
    """So many chains of 512 keys."""
    heads = [draft.key(digits(it), security, draft.list(b"li", [draft.chain(b"A", 511, security)])) for it in range(count)]
    return {"lists": draft.list(b"lf", heads)}


def deepest(draft, security, count):
    """So many keys at the end of a chain of 511 keys with the longest names."""
    keys = [draft.key(digits(it), security) for it in range(count)]
    return {"lists": draft.list(b"li", [draft.chain(b"D" * 255, 511, security, draft.list(b"li", keys))])}


def alike(draft, security, count):
    """So many subkeys whose names have one hash of the format: 37 times 0x31 and 0x21 is 37 times 0x30 and 0x46."""
    names = (b"".join(b"0F" if it >> bit & 1 else b"1!" for bit in range(16)) for it in range(count))
    return {"lists": draft.list(b"lh", [draft.key(name, security) for name in names])}


def ends(draft, security, count):
    """So many subkeys with the longest names, which differ at their ends alone."""
    return {"lists": draft.list(b"lh", [draft.key(b"N" * 247 + digits(it), security) for it in range(count)])}


def values(draft, security, count):
    """So many values of one key."""
    return {"values": count, "members": draft.row([draft.value(digits(it), 0x80000004, it) for it in range(count)])}


def shared(draft, security, count):
    """So many keys that share the longest descriptor."""
    longest = draft.security(b"\7" * 65_535)
    return {"lists": draft.list(b"lh", [draft.key(digits(it), longest) for it in range(count)])}


def descriptors(draft, security, count):
    """So many keys with descriptors of their own, which have one hash of the table of descriptors: the first eight bytes make one
    factor of its product 0."""
    own = (draft.security(struct.pack("<QQ", 0x243F6A8885A308E3, it)) for it in range(count))
    return {"lists": draft.list(b"lh", [draft.key(digits(it), at) for it, at in enumerate(own)])}


def lists(draft, security, count):
    """So many lists of no key."""
    return {"lists": draft.list(b"ri", [draft.list(b"li", []) for _ in range(count)])}


def again(draft, security, count):
    """A list that names one key so many times."""
    return {"lists": draft.list(b"li", [draft.key(b"A", security)] * count)}


def segments(draft, security, count):
    """Big data that names one segment so many times."""
    row = draft.row([draft.cell(b"\t" * 16_344)] * count)
    data = draft.cell(b"db" + struct.pack("<HI", count, row))
    return {"values": 1, "members": draft.row([draft.value(b"A", 1_048_576, data)])}


# Each shape, and how many of it make its smaller image.
SHAPES = (
    (chains, 20),
    (deepest, 1_000),
    (alike, 30_000),
    (ends, 10_000),
    (values, 8_192),
    (shared, 10_000),
    (descriptors, 20_000),
    (lists, 30_000),
    (again, 30_000),
    (segments, 30_000),
)


def image_of(shape, count):
    draft = Draft()
    security = draft.security(DESCRIPTOR)
    return draft.image(draft.key(b"ROOT", security, **shape(draft, security, count)))


def honest(length):
    """An image of about so many bytes: keys below the root, each with a value of 100 bytes."""
    draft = Draft()
    security = draft.security(DESCRIPTOR)
    keys = []
    for it in range(length // HONEST_KEY):
        value = draft.value(b"Value", 100, draft.cell(b"\5" * 100))
        keys.append(draft.key(digits(it), security, values=1, members=draft.row([value])))
    return draft.image(draft.key(b"ROOT", security, draft.list(b"lh", keys)))


def timed(tool, word, path):
    """How many seconds a command takes, and its first line where it fails."""
    start = time.monotonic()
    ran = subprocess.run([tool, word, path], stdin=subprocess.DEVNULL, capture_output=True)
    took = time.monotonic() - start
    return took, ran.stdout.split(b"\n")[0].decode(errors="replace") if ran.returncode else ""


def measure(tool, say=print):
    """Times `check` and `dump` of each shape at two sizes, beside an honest image as large."""
    with tempfile.TemporaryDirectory(prefix="hostile-images-") as folder:
        one, other = os.path.join(folder, "hostile"), os.path.join(folder, "honest")
        for shape, least in SHAPES:
            checks = []
            for count in (least, 2 * least):
                image = image_of(shape, count)
                for path, bytes_of in ((one, image), (other, honest(len(image)))):
                    with open(path, "wb") as out:
                        out.write(bytes_of)
                best = {}
                for _ in range(TURNS):
                    for word in ("check", "dump"):
                        for path in (one, other):
                            took, fault = timed(tool, word, path)
                            best[word, path] = min(best.get((word, path), (took, fault)), (took, fault))
                (check, fault), (dump, _) = best["check", one], best["dump", one]
                beside = check / best["check", other][0], dump / best["dump", other][0]
                checks.append(check)
                say(f"{shape.__name__} {count}: {len(image)} bytes{', ' + fault if fault else ''}, check {check * 1000:.1f} ms, {beside[0]:.2f} times "
                    f"an honest image; dump {dump * 1000:.1f} ms, {beside[1]:.2f} times")
            say(f"{shape.__name__}: twice as much took {checks[1] / checks[0]:.2f} times as long to check")
