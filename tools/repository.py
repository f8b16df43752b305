"""What the programs of tools/ share: where things are, copies, wrong bodies, how a program begins and how it ends.

The statuses of all of them: 0 all is well, 1 something is wrong that the program looked for, 2 nothing was tried.
"""
import argparse
import os
import shutil
import signal
import subprocess
import sys
from glob import glob

TOP = os.path.dirname(os.path.dirname(os.path.realpath(__file__)))
WELL, WRONG, UNTRIED = 0, 1, 2


class Untried(Exception):
    """Nothing was tried, and why."""


class Failed(Exception):
    """What has to end well didn't, and how."""


def parser(text):
    """A parser of words, whose help is a program's docstring."""
    return argparse.ArgumentParser(description=text, formatter_class=argparse.RawDescriptionHelpFormatter)


def end(main, name=os.path.basename(sys.argv[0])):
    """Runs a program's main, and ends with its status. `name` stands before what is told of why nothing was tried, or what failed."""
    for it in (signal.SIGTERM, signal.SIGHUP):
        signal.signal(it, lambda number, _: sys.exit(128 + number))
    try:
        status = main()
    except Untried as why:
        print(f"{name}: {why}", file=sys.stderr)
        status = UNTRIED
    except Failed as why:
        print(f"{name}: {why}", file=sys.stderr)
        status = WRONG
    except KeyboardInterrupt:
        print(f"{name}: stopped", file=sys.stderr)
        status = 130
    sys.exit(status)


def tell(text):
    """Says on standard error what a program is at."""
    print(f"{os.path.basename(sys.argv[0])}: {text}", file=sys.stderr, flush=True)


def kit():
    """The folder of the kit."""
    if not shutil.which("rt"):
        raise Untried("rt isn't on the path")
    return os.path.dirname(os.path.dirname(os.path.realpath(shutil.which("rt"))))


def folder_of(crate):
    return f"{TOP}/crates/{crate}"


def crates():
    """Each crate of crates.txt, in its order, with the libraries of the repository that it names."""
    with open(f"{TOP}/crates.txt", encoding="utf-8") as lines:
        parts = [line.partition("#")[0].partition(":") for line in lines]
    uses = {head.split()[0]: libraries.split() for head, _, libraries in parts if head.strip()}
    return {name: [it for it in libraries if it in uses] for name, libraries in uses.items()}


def below(names):
    """The libraries of the repository that these crates stand on, lowest first, without the crates themselves."""
    uses = crates()
    unknown = [it for it in names if it not in uses]
    if unknown:
        raise Untried(f"crates.txt has no {', '.join(unknown)}")
    found, left = set(), list(names)
    while left:
        more = set(uses[left.pop()]) - found
        found |= more
        left += more
    return [it for it in uses if it in found]


def copied(to, *without):
    """Copies the repository, without its history, to a folder that isn't there. `without` names further files and folders."""
    shutil.copytree(TOP, to, ignore=shutil.ignore_patterns(".git", "__pycache__", *without))


def edits_of(crate, folder):
    """The wrong bodies in such a folder of a crate, by their paths."""
    return sorted(glob(f"{folder_of(crate)}/{folder}/*.edit"))


def crates_with(folder, names):
    """The crates that are named, or else all, that have wrong bodies in such a folder."""
    uses = crates()
    found = sorted(set(names)) or [it for it in sorted(uses) if edits_of(it, folder)]
    without = [it for it in found if not edits_of(it, folder)]
    if without:
        raise Untried(f"no crates/NAME/{folder}/*.edit of {', '.join(without)}")
    return found


def rt(folder, *words):
    """Runs rt in a folder: its status, and what it said on both outputs."""
    how = {"stdin": subprocess.DEVNULL, "stdout": subprocess.PIPE, "stderr": subprocess.STDOUT, "errors": "replace"}
    try:
        return subprocess.run(["rt", *words], cwd=folder, **how)
    except FileNotFoundError:
        raise Untried("rt isn't on the path") from None


def preloaded(made, source):
    """Compiles C code to a library in the folder `made`, which a program loads before the C library, and answers its path."""
    text, library = f"{made}/counting.c", f"{made}/counting.so"
    with open(text, "w", encoding="utf-8") as out:
        out.write(source)
    try:
        ran = subprocess.run(["cc", "-O1", "-shared", "-fPIC", "-o", library, text])
    except FileNotFoundError:
        raise Untried("there is no C compiler: cc isn't on the path") from None
    if ran.returncode:
        raise Untried("cc doesn't compile the library that counts memory")
    return library
