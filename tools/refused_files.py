"""Commands on hive files where memory is refused: each is done, or says why not, and then leaves each file as it was.

The last one is an edit after which most of the file's bins is free, so that the hive is built anew: more than half of the bins is free
once the key `Big` went with its values. The step `rebuild` must be among those that were told.
"""
import os
import re
import subprocess
import tempfile
from collections import Counter

from refusing import numbers, run, tell_counts

KEYS, SIZE = 8, 2_000
BEFORE = "root 983103\ncreate 0 =Software\\Zugmeled 983103\nset 1 =v 4 x01000000\nset 1 =text 1 x6100620000\n"
LARGE = "root 983103\ncreate 0 =Big 983103\n" + "".join(f"set 1 =v{it} 3 x{'2a' * SIZE}\n" for it in range(KEYS))
SET = b"root 983103\nset 0 =w 4 x02000000\ncreate 0 =New 983103\n"
TREE = b"root 983103\ndeltree 0 =Big\n"
TEXT = b'Windows Registry Editor Version 5.00\r\n\r\n[ROOT\\New]\r\n"w"=dword:00000002\r\n"s"="text"\r\n'
COMMANDS = {
    "edit": (["edit", "a", "--at", "9"], SET),
    "import": (["import", "a", "--at", "9"], TEXT),
    "copy": (["copy", "b", "Software", "a", "Software", "--at", "9"], b""),
    "export": (["export", "a", "--as", "reg"], b""),
    "export as JSON": (["export", "a", "--as", "json"], b""),
    "diff": (["diff", "a", "b"], b""),
    "find": (["find", "a", "text"], b""),
}


# What a command reports where memory is wanting: of a script or a text, that a call was refused for it.
WANTS = re.compile(
    rb"error (8|script 4: [^\n]+|rebuild a: [^\n]*memory[^\n]*|line \d+ of standard input: [^\n]*refused with status 8 \(not enough memory\))\n"
)


def files_of(folder):
    """The files of a folder, by name."""
    found = {}
    for name in os.listdir(folder):
        with open(f"{folder}/{name}", "rb") as file:
            found[name] = file.read()
    return found


def restore(folder, files):
    """Puts these files into a folder, and takes all others out."""
    for name in os.listdir(folder):
        os.remove(f"{folder}/{name}")
    for name, content in files.items():
        with open(f"{folder}/{name}", "wb") as out:
            out.write(content)


def dumps_of(tool, files):
    """The dumps of hive files, which are read to their end."""
    return {name: subprocess.run([tool, "dump"], input=file, capture_output=True, check=True).stdout for name, file in files.items()}


def verdict(tool, before, after, done, ran, whole):
    """What came of a command: it was done as else, or it says why not and the files are as they were. Where there is no memory to build
    a hive with room ahead, it is built without."""
    status, output, errors = ran
    if (*ran, after) == (*whole, done):
        return "done"
    if ran == whole and dumps_of(tool, after) == dumps_of(tool, done):
        return "done, without room ahead"
    if after != before:
        return "WRONG"
    # A reply of 8 is the last that a script is given.
    is_front = whole[1].startswith(output) or output.endswith(b"8\n") and whole[1].startswith(output[:-2])
    if status == 1 and is_front and WANTS.fullmatch(errors):
        return errors.partition(b":")[0].decode().strip()
    return "WRONG"


def refuse_one(tool, library, folder, before, every, what, words, given):
    """Refuses allocations of a command, and prints what came of it. Answers whether all went well, and what was told."""
    def ran(number):
        restore(folder, before)
        *said, was_refused = run(library, [tool, *words], given, number, folder)
        return tuple(said), was_refused, files_of(folder)

    seen = Counter()
    whole, _, done = ran(0)
    if whole[0] != (what == "diff") or whole[2]:
        print(f"{what}: status {whole[0]}, {whole[2]!r}, though no memory is refused")
        return False, seen
    for number in numbers(every):
        said, was_refused, after = ran(number)
        if not was_refused:
            break
        found = verdict(tool, before, after, done, said, whole)
        seen[found] += 1
        if found == "WRONG":
            print(f"{what}: allocation {number}: status {said[0]}, {said[1][:60]!r}, {said[2][:80]!r}, {sorted(after)}", flush=True)
    return tell_counts(what, seen), seen


def made(tool, folder, scripts):
    """Hive files, each made by a script."""
    for name, script in scripts.items():
        subprocess.run([tool, "new", name], cwd=folder, check=True)
        words = {"input": script.encode(), "check": True, "stdout": subprocess.DEVNULL}
        subprocess.run([tool, "edit", name, "--at", "7"], cwd=folder, **words)
    return files_of(folder)


def refuse_all(tool, library, every):
    """Refuses allocations of each command: each, or one of so many. Answers of each whether all went well."""
    good = []
    with tempfile.TemporaryDirectory(prefix="refused-files-") as folder:
        before = made(tool, folder, {"a": BEFORE, "b": BEFORE + "delvalue 1 =v\n"})
        for what, (words, given) in COMMANDS.items():
            good.append(refuse_one(tool, library, folder, before, every, what, words, given)[0])
    with tempfile.TemporaryDirectory(prefix="refused-files-") as folder:
        before = made(tool, folder, {"a": LARGE})
        words = ["edit", "a", "--at", "9"]
        is_well, seen = refuse_one(tool, library, folder, before, every, "edit of a hive that is built anew", words, TREE)
        good.append(is_well and (every > 1 or seen["error rebuild a"] > 0))
    return good
