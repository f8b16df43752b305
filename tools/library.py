"""Proves and builds the library that C calls, and puts all that a caller needs of it under dist/."""
import os
import re
import shutil
import subprocess
import tempfile

from building import build, stale
from repository import TOP, Failed, Untried, below, crates, folder_of, kit

NAME = "zugmeled"
DIST = f"{TOP}/dist"


def run(*words, folder=None):
    """Runs a command, which has to end well."""
    try:
        done = subprocess.run(words, cwd=folder, stdout=subprocess.PIPE, stderr=subprocess.STDOUT, text=True)
    except FileNotFoundError:
        raise Untried(f"{words[0]} isn't on the path") from None
    if done.returncode:
        raise Failed(f"{' '.join(words)} ended with {done.returncode}:\n{done.stdout}")


def text_of(path):
    with open(path, encoding="utf-8") as it:
        return it.read()


def version_of(header):
    """The header's version, as `1.2.3`."""
    number = int(re.search(r"#define ZUG_VERSION (\d+)", header)[1])
    return f"{number // 10000}.{number // 100 % 100}.{number % 100}"


def archive():
    """The static library as it was built, without what it calls malloc by."""
    return f"{folder_of(NAME)}/out/lib{NAME}.a"


def heap_of_kit():
    """The archive by which the library calls malloc, realloc and free."""
    return f"{kit()}/c/liblibc_c.a"


def build_archive():
    """Proves and builds the static library over the libraries that `rt ci` built, as they stand: it only proves this one."""
    libraries = {it: f"{folder_of(it)}/out/rlib" for it in below([NAME])}
    missing = [it for it, at in libraries.items() if not os.path.isdir(f"{at}/{it}.rlib")]
    if missing:
        raise Untried(f"{', '.join(missing)} of those below {NAME} is not built")
    others = stale(libraries)
    if others:
        raise Untried(f"{', '.join(others)} of those below {NAME} is of other sources than these: ./build --library")
    names = [f"--extern={it}={libraries[it]}/{it}.rlib" for it in crates()[NAME]]
    rest = [word for at in libraries.values() for word in ("-L", f"dependency={at}")]
    of_kit = [f"--extern=std={kit()}/rlibs/std.rlib", "-L", f"dependency={kit()}/rlibs", "--antt-project", f"{kit()}/rattle/logic/antt-project.json",
              "--logic-built", f"{kit()}/logic_built", "--toolchain", f"{kit()}/toolchain"]
    words = ["--crate-name", NAME, "--crate-type", "staticlib", "src/lib.rt", *of_kit, *names, *rest, "-o", archive()]
    os.makedirs(os.path.dirname(archive()), exist_ok=True)
    run(f"{kit()}/bin/rattle", "build", *words, folder=folder_of(NAME))


def put_archive(to):
    """The static library, with what it calls malloc by, so that callers link one file."""
    whole = f"{to}/lib{NAME}.a"
    shutil.copy2(archive(), whole)
    with tempfile.TemporaryDirectory() as room:
        run("ar", "x", heap_of_kit(), folder=room)
        run("ar", "rs", whole, *[f"{room}/{it}" for it in sorted(os.listdir(room))])


def put_shared(to):
    """The shared library, of the whole archive."""
    compiler = os.environ.get("CC", "cc")
    run(compiler, "-shared", "-o", f"{to}/lib{NAME}.so", "-Wl,--whole-archive", f"{to}/lib{NAME}.a", "-Wl,--no-whole-archive")


def put(to=DIST):
    """Puts the header, both libraries and the file for pkg-config in a folder."""
    os.makedirs(to, exist_ok=True)
    header = text_of(f"{TOP}/include/{NAME}.h")
    shutil.copy2(f"{TOP}/include/{NAME}.h", to)
    put_archive(to)
    put_shared(to)
    with open(f"{to}/{NAME}.pc", "w", encoding="utf-8") as out:
        out.write(text_of(f"{TOP}/bindings/c/{NAME}.pc.in").replace("@VERSION@", version_of(header)))


def build_library(at_once=None):
    build(*below([NAME]), at_once=at_once)
    build_archive()
    put()
    print(f"{os.path.relpath(DIST)}: {', '.join(sorted(os.listdir(DIST)))}")
