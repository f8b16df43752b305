"""The bins of an image read byte by byte, as docs/FORMAT.md has them: their cells, and the lists of a key's subkeys."""
import struct
from collections import namedtuple

NONE, BLOCK, PAGE = 0xFFFFFFFF, 4096, 4096

# Whether a key names an index root, how many entries each of its lists has, and the keys in these, their offsets and their names.
Subkeys = namedtuple("Subkeys", "is_rooted counts offsets names")


class Malformed(Exception):
    """The bins aren't as the format has them, and how."""


def test(is_right, what):
    if not is_right:
        raise Malformed(what)


def hash_of(name):
    """37 times what comes of the letters before, and the folded letter, modulo 2^32."""
    sum = 0
    for byte in name.upper():
        sum = (37 * sum + byte) % (1 << 32)
    return sum


class Bins:
    """The bins of an image. `cells` has the size of each allocated cell by its offset, `root` is the offset of the root's."""

    def __init__(self, image):
        self.root, size = struct.unpack_from("<II", image, 36)
        self.bytes, self.cells = image[BLOCK:], {}
        test(len(self.bytes) == size, "the base block tells another size of the bins")
        at = 0
        while at < size:
            at = self.read_bin(at)

    def read_bin(self, at):
        """Reads the cells of a bin, and answers where the next one begins. No free cell stands beside another."""
        letters, own, size = struct.unpack_from("<4sII", self.bytes, at)
        end = at + size
        test(letters == b"hbin" and own == at and size and size % PAGE == 0 and end <= len(self.bytes), f"no bin begins at {at}")
        cell, is_free = at + 32, False
        while cell < end:
            (field,) = struct.unpack_from("<i", self.bytes, cell)
            test(field and field % 8 == 0 and cell + abs(field) <= end, f"the cell at {cell} has no size of one")
            test(field < 0 or not is_free, f"the free cell at {cell} stands behind another")
            if field < 0:
                self.cells[cell] = -field
            cell, is_free = cell + abs(field), field > 0
        return end

    def content(self, offset):
        """What an allocated cell holds."""
        test(offset in self.cells, f"no allocated cell begins at {offset}")
        return self.bytes[offset + 4 : offset + self.cells[offset]]

    def subkeys(self, key):
        """A key's subkeys as their lists stand in the bins, which have as many as the key says."""
        node = self.content(key)
        count, offset = struct.unpack_from("<I4xI", node, 20)
        is_rooted = offset != NONE and self.content(offset)[:2] == b"ri"
        lists = self.lists_in(offset) if is_rooted else [] if offset == NONE else [offset]
        entries = [self.entries_in(it, key) for it in lists]
        offsets, names = ([entry[part] for it in entries for entry in it] for part in range(2))
        test(count == len(names), f"the key at {key} counts {count} subkeys")
        return Subkeys(is_rooted, [len(it) for it in entries], offsets, names)

    def lists_in(self, root):
        """The lists that an index root names."""
        record = self.content(root)
        (count,) = struct.unpack_from("<H", record, 2)
        return struct.unpack_from(f"<{count}I", record, 4)

    def entries_in(self, leaf, above):
        """The keys that a hash leaf names, each beside its hash, below a key: their offsets and names."""
        record = self.content(leaf)
        letters, count = struct.unpack_from("<2sH", record)
        test(letters == b"lh", f"the cell at {leaf} holds no hash leaf")
        entries = [struct.unpack_from("<II", record, 4 + 8 * it) for it in range(count)]
        keys = [(key, self.name_below(above, key)) for key, _ in entries]
        test([hash_of(name) for _, name in keys] == [it for _, it in entries], f"the list at {leaf} has another hash")
        return keys

    def name_below(self, above, key):
        """The name of a key, which names the one above it."""
        node = self.content(key)
        letters, parent, length = struct.unpack_from("<2s14xI52xH", node)
        test(letters == b"nk" and parent == above, f"the key at {key} stands below {parent}")
        test(76 + length <= len(node), f"the key at {key} ends before its name")
        return node[76 : 76 + length]
