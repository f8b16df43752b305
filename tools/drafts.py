"""Images as other programs may write them: those that the cases of reg_cases draft cell by cell."""
import re
import struct
from glob import glob

from hostile_images import NONE, Draft
from repository import folder_of

# A step that drafts an image, with its minor version, and the lines that are given. Steps with braces or rows (`$1`) are passed over.
STEP = re.compile(r"^\$ draft \w+(?: ([345]))?\n((?:< [^{$\n]*\n)+)(?!<)", re.M)
HINT = b"\xff" * 4


def words(numbers):
    return struct.pack(f"<{len(numbers)}I", *numbers)


def half(number):
    return struct.pack("<H", number & 0xFFFF)


def key(numbers, name):
    flags, time, subkeys, under, values, members, security, kind, kind_size = numbers
    head = half(flags) + words([time, 0, 0, 0, subkeys, 0, under, NONE, values, members, security, kind, 0, 0, 0, 0, 0])
    return head + half(len(name)) + half(kind_size) + name


def listed(hint):
    return lambda numbers, _: half(len(numbers)) + b"".join(words([it]) + hint for it in numbers)


# The record of each kind behind its letters, by its numbers and bytes.
RECORDS = {
    "nk": key,
    "vk": lambda numbers, name: half(len(name)) + words(numbers) + name,
    "sk": lambda numbers, own: half(0) + words(numbers) + own,
    "db": lambda numbers, _: half(numbers[0]) + words(numbers[1:]),
    "lf": listed(HINT),
    "lh": listed(HINT),
    "li": listed(b""),
    "ri": listed(b""),
}


def content(kind, numbers, given):
    if kind == "row":
        return words(numbers)
    if kind == "fill":
        return numbers[0] * given
    return kind.encode() + RECORDS[kind](numbers, given)


def drafted(lines, minor):
    """The image that such lines say: the last one's cell is the root."""
    draft, offsets = Draft(), []
    for line in lines:
        kind, *rest = line.split(" ")
        given = b"".join(it[1:].encode() if it[0] == "=" else bytes.fromhex(it[1:]) for it in rest if it[0] in "=x")
        places = [it for it in rest if it[0] not in "=x"]
        numbers = [NONE if it == "-" else offsets[int(it[1:]) - 1] if it[0] == "@" else int(it) for it in places]
        offsets.append(draft.cell(content(kind, numbers, given)))
    return draft.image(offsets[-1], minor)


def foreign():
    """The images that the cases of images draft."""
    texts = [open(it, encoding="utf-8").read() for it in sorted(glob(f"{folder_of('reg_cases')}/data/cases/images/*.txt"))]
    return [drafted(lines.replace("< ", "").splitlines(), int(minor or 5)) for text in texts for minor, lines in STEP.findall(text)]
