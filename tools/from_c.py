"""What tries the library by programs in C, and in Rust: where it is, how these are compiled with it, and what they lack here."""
import os
import re
import shutil
import subprocess
import tempfile
from contextlib import contextmanager
from glob import glob

import library
from repository import TOP, Failed, Untried, below, folder_of

PROGRAMS = f"{TOP}/bindings/c"
RUST = f"{TOP}/bindings/rust"
COMPILER = os.environ.get("CC", "cc")
# The programs keep to ISO C and POSIX, so that every compiler takes them.
ISO_C = ["-std=c99", "-D_POSIX_C_SOURCE=200809L", "-pedantic-errors"]
# Each program, and what it is compiled with beside the library.
REFUSING = ["-Wl,--wrap=malloc", "-Wl,--wrap=realloc"]
FLAGS = {"every_export": REFUSING, "hostile": REFUSING, "sessions": ["-pthread"]}
# What else a program with threads is compiled with, to find races.
RACES = ["-O1", "-g", "-fsanitize=thread"]
LEAKS = ["--leak-check=full", "--show-leak-kinds=all", "--errors-for-leak-kinds=all"]
# Under what a program runs: what it is compiled with for that, and what it is started by.
UNDER = {
    "": (["-O2"], []),
    "asan": (["-O1", "-g", "-fsanitize=address,undefined", "-fno-sanitize-recover=all"], []),
    "valgrind": (["-O1", "-g"], ["valgrind", "-q", *LEAKS, "--error-exitcode=9"]),
}


def newest_source():
    """When the sources of the library were last changed."""
    folders = [f"{folder_of(it)}/{part}" for it in [*below([library.NAME]), library.NAME] for part in ("src", "specs")]
    return max(os.path.getmtime(it) for folder in folders for it in glob(f"{folder}/**", recursive=True))


def refuse_stale():
    """Nothing is tried of a library that isn't built, or not since its sources were changed. The gate proves it, and builds none."""
    if not os.path.exists(library.archive()):
        raise Untried("the library isn't built: ./build --library")
    if os.path.getmtime(library.archive()) < newest_source():
        raise Untried("the library is older than its sources: ./build --library")


@contextmanager
def put(behind_the_gate=False):
    """A folder with the library and its header, as they were built, or, behind the gate, as they are built now of what it left."""
    if not shutil.which(COMPILER):
        raise Untried(f"there is no C compiler: {COMPILER} isn't on the path")
    if behind_the_gate:
        library.build_archive()
    refuse_stale()
    with tempfile.TemporaryDirectory(prefix="from-c-") as folder:
        library.put(folder)
        yield folder


def example_of_header(folder):
    """Puts the program that the header's first comment shows in a folder, and answers its path there."""
    header = library.text_of(f"{folder}/{library.NAME}.h")
    shown = re.search(r"^ \*     #include .*?^ \*     \}$", header, re.M | re.S)
    if not shown:
        raise Failed("the header shows no program")
    with open(f"{folder}/first.c", "w", encoding="utf-8") as out:
        out.writelines(f"{it[7:]}\n" for it in shown[0].splitlines())
    return f"{folder}/first.c"


def compiled(folder, name, *flags, source=""):
    """Compiles a program of bindings/c, or of another source, with the library in a folder, and answers its path there."""
    program = f"{folder}/{name}"
    sources = [f"-I{folder}", source or f"{PROGRAMS}/{name}.c", f"{folder}/lib{library.NAME}.a"]
    library.run(COMPILER, *ISO_C, *flags, *sources, *FLAGS.get(name, []), "-o", program)
    return program


def can_run(folder, *flags):
    """Whether a program that is compiled with these flags runs here: a sanitizer may have no library, or no room for its memory."""
    program = f"{folder}/nothing"
    with open(f"{program}.c", "w", encoding="utf-8") as out:
        out.write("int main(void) { return 0; }\n")
    for words in ([COMPILER, *flags, f"{program}.c", "-o", program], [program]):
        if subprocess.run(words, stdout=subprocess.DEVNULL, stderr=subprocess.DEVNULL).returncode:
            return False
    return True


def without_cargo():
    """Why the tests of the Rust wrapper can't be run: there is no cargo, or an older one than the wrapper names. Nothing where they can."""
    if not shutil.which("cargo"):
        return "there is no cargo"
    with open(f"{RUST}/Cargo.toml", encoding="utf-8") as it:
        needed = re.search(r'^rust-version = "(\d+)\.(\d+)"', it.read(), re.M)
    said = subprocess.run(["cargo", "--version"], capture_output=True, text=True).stdout
    found = re.match(r"cargo (\d+)\.(\d+)", said)
    if not found or [int(it) for it in found.groups()] < [int(it) for it in needed.groups()]:
        return f"cargo is {said.strip() or 'of no toolchain'}, and {'.'.join(needed.groups())} is needed"
    return ""
