"""Proves and builds libraries with all below by `rt ci`, in a room, which is a copy of their sources, and the tool over them.

`rt ci` keeps what is done for its next run and for the gate's, where the kit has a place for that. So each crate is proved by a run of its
own (proving.py), a last run for all builds the highest and gives what was kept of the rest, and a build that is stopped goes on from
there. Its libraries have statements in the place of proofs, which a check above reads sooner. The room has no wrong bodies, which the gate
tries. What was built goes from there to out/ of its crate. `rt ci` leaves libraries without the stamp by which the kit's other commands know
what they were built of; they get it here, so that `rt check` begins at once, and `rt run`, which builds the tool over them.
"""
import fcntl
import importlib.util
import os
import re
import shutil
import subprocess
import sys
import tempfile
import time
from contextlib import contextmanager, suppress
from functools import cache
from glob import glob

import repository
from proving import is_chain, prove_by_chains, with_jobs
from repository import TOP, Failed, Untried, folder_of, kit, tell

LEFT_OUT = ("out", "must-fail", "wrong-bodies", "tested-bodies")
# What a check takes of memory, in bytes. `rt ci` by itself counts up to four times as much, and leaves processors idle.
MEMORY = 3_600_000_000
# The program that is built by one compiler alone.
TOOL = "regtool"
DONE = re.compile(r"rt: (\w+) (?:proved|is kept: .*)$")


def free_memory():
    """The memory that is free, in bytes, under the control group's limit too."""
    with open("/proc/meminfo", encoding="utf-8") as lines:
        free = next(1024 * int(line.split()[1]) for line in lines if line.startswith("MemAvailable:"))
    try:
        limit, used = (open(f"/sys/fs/cgroup/memory.{it}", encoding="utf-8").read() for it in ("max", "current"))
        return min(free, int(limit) - int(used))
    except (OSError, ValueError):
        return free


def checks_at_once():
    """How many checks the processors and the free memory hold."""
    return max(1, min(len(os.sched_getaffinity(0)), int(0.85 * free_memory() / MEMORY)))


@contextmanager
def locked(crate):
    """Keeps rt out of a crate's folder, by the lock that it takes itself."""
    folder = os.open(folder_of(crate), os.O_RDONLY)
    try:
        try:
            fcntl.flock(folder, fcntl.LOCK_EX | fcntl.LOCK_NB)
        except BlockingIOError:
            tell(f"waiting until another rt ends in crates/{crate}")
            fcntl.flock(folder, fcntl.LOCK_EX)
        yield
    finally:
        os.close(folder)


@contextmanager
def room_for(names):
    """A copy of the sources of crates, as a repository of its own, on the disk of this one."""
    place = f"{TOP}/.git" if os.path.isdir(f"{TOP}/.git") else f"{TOP}/out"
    os.makedirs(place, exist_ok=True)
    lock = os.open(TOP, os.O_RDONLY)
    try:
        fcntl.flock(lock, fcntl.LOCK_EX | fcntl.LOCK_NB)
        for it in glob(f"{place}/room-*"):
            shutil.rmtree(it, ignore_errors=True)
        with tempfile.TemporaryDirectory(prefix="room-", dir=place, ignore_cleanup_errors=True) as room:
            fill(room, names)
            yield room
    except BlockingIOError:
        raise Untried("another build is at work in this copy of the repository") from None
    finally:
        os.close(lock)


def fill(room, names):
    # By this folder rt knows the top of a repository.
    os.mkdir(f"{room}/.git")
    for it in names:
        shutil.copytree(folder_of(it), f"{room}/crates/{it}", ignore=shutil.ignore_patterns(*LEFT_OUT))
    list_crates(room, names)
    shutil.copy2(f"{TOP}/HANDLES", room)


def list_crates(room, names):
    """Writes a room's list of its crates."""
    with open(f"{TOP}/crates.txt", encoding="utf-8") as lines, open(f"{room}/crates.txt", "w", encoding="utf-8") as out:
        out.writelines(line for line in lines if line.partition(":")[0].partition(" ")[0] in names)


class Progress:
    """Which crates of a build are done, and which of them stand whole in the room. It prints a line for each, and keeps what `rt` says in a
    log."""

    def __init__(self, names, log, out):
        self.names, self.log, self.out, self.done, self.given, self.begun = names, log, out, [], [], time.monotonic()
        open(log, "w", encoding="utf-8").close()

    def note(self, crate):
        if crate in self.names and crate not in self.done:
            self.done.append(crate)
            minutes = (time.monotonic() - self.begun) / 60
            print(f"{crate}: {len(self.done)} of {len(self.names)}, {minutes:.1f} minutes", file=self.out, flush=True)

    def note_said(self, said):
        """Notes what `rt` said, and each crate that is done by that, which it answers."""
        with open(self.log, "a", encoding="utf-8") as kept:
            kept.write(said)
        found = [it[1] for it in map(DONE.match, said.splitlines()) if it]
        for it in found:
            self.note(it)
        return found


def prove(room, names, progress, built, at_once):
    """Proves and builds the crates of a room, but for libraries that are built. Raises `Failed` where one isn't; what is done stands there."""
    at_once = at_once or checks_at_once()
    try:
        left = prove_by_chains(room, names, built, at_once, progress.note_said)
    except Failed as why:
        ended = told(progress, why)
        leave(room, progress.done)
        if progress.done:
            build_all(room, progress, None)
        raise ended from None
    try:
        build_all(room, progress, None if is_chain(left) else at_once)
    except Failed as why:
        raise told(progress, why) from None


def told(progress, why):
    """A failure, with the end of the log."""
    return Failed(f"{why}. The end of {os.path.relpath(progress.log, TOP)}:\n{end_of(progress.log)}")


def leave(room, names):
    """Takes all crates but these from a room."""
    for it in os.listdir(f"{room}/crates"):
        if it not in names:
            shutil.rmtree(f"{room}/crates/{it}")
    list_crates(room, names)


def build_all(room, progress, at_once):
    """Proves what isn't kept yet, so many crates at once, or as the kit chooses, and has each library and program stand in the room."""
    how = {"cwd": room, "stdin": subprocess.DEVNULL, "stdout": subprocess.PIPE, "stderr": subprocess.STDOUT, "text": True, "errors": "replace"}
    # In a session of its own, so that Ctrl-C reaches this program alone.
    command = subprocess.Popen(["rt", "ci"], env=with_jobs(at_once), start_new_session=True, **how)
    try:
        for line in command.stdout:
            progress.given += progress.note_said(line)
        status = command.wait()
    finally:
        command.terminate()
        command.wait()
    if status:
        raise Failed(f"rt ci ended with {status}")


def end_of(log):
    with open(log, encoding="utf-8", errors="replace") as lines:
        return "".join(lines.readlines()[-40:]).strip()


def put(room, crate, begun):
    """Gives what was built of a crate to its out/: a library, a program, and that of its tests. It is as old as the copy that it was built of,
    so that a source that was changed since is newer."""
    made = f"{room}/crates/{crate}/out"
    with locked(crate):
        for it in ("rlib", crate, f"{crate}_tests"):
            to = f"{folder_of(crate)}/out/{it}"
            if os.path.isdir(f"{made}/{it}"):
                shutil.rmtree(to, ignore_errors=True)
            if os.path.exists(f"{made}/{it}"):
                shutil.move(f"{made}/{it}", to)
                os.utime(to, (begun, begun))


def stamps(names):
    """By which stamps the kit's other commands know libraries that are built of the sources as they stand now, by crates. There are none
    where the kit's stamps aren't as they are known here."""
    try:
        spec = importlib.util.spec_from_file_location("rtlib", f"{kit()}/bin/rtlib.py")
        rtlib = importlib.util.module_from_spec(spec)
        spec.loader.exec_module(rtlib)
        # A stamp is made of those below, so each is made once alone.
        rtlib.Crate.stamp = cache(rtlib.Crate.stamp)
        return {it.name: it.stamp() for it in rtlib.crates_below(TOP) if it.name in names}
    except (OSError, AttributeError, TypeError, SystemExit) as why:
        tell(f"the libraries get no stamps, so rt check builds them anew: {why}")
        return {}


def stamp_of(crate):
    """Where the stamp of a crate's library stands."""
    return f"{folder_of(crate)}/out/rlib/stamp"


def mark_of(crate):
    """Where the same stands once more if `rt ci` proved the library, so that the kit may have kept it."""
    return f"{folder_of(crate)}/out/rlib/built"


def stamp(names, before):
    """Stamps built libraries, but for those of which a source was changed since these stamps were made."""
    now = stamps(names)
    for it in names:
        if it in now and now[it] == before.get(it) and os.path.isdir(os.path.dirname(stamp_of(it))):
            for path in (stamp_of(it), mark_of(it)):
                with open(path, "w", encoding="utf-8") as out:
                    out.write(now[it])


def built_now(stamps):
    """The crates of these stamps whose library stands in out/, built here of the sources that the stamps were made of."""
    found = set()
    for it, now in stamps.items():
        with suppress(FileNotFoundError), open(mark_of(it), encoding="utf-8") as known:
            found |= {it} if known.read() == now else set()
    return found


def stale(names):
    """Which libraries are of other sources than stand now: by their stamps, or where they have none by their age."""
    found, now = [], stamps(names)
    for it in names:
        try:
            with open(stamp_of(it), encoding="utf-8") as known:
                is_stale = it in now and known.read() != now[it]
        except FileNotFoundError:
            is_stale = is_older(os.path.dirname(stamp_of(it)), it)
        found += [it] * is_stale
    return found


def build(*crates, at_once=None, out=sys.stdout):
    """Builds crates and all below them, and prints a line for each as it is done. Raises `Failed` where one isn't built."""
    if not shutil.which("rt"):
        raise Untried("rt isn't on the path")
    below = repository.below(crates)
    names = [it for it in repository.crates() if it in below or it in crates]
    for it in names:
        os.makedirs(f"{folder_of(it)}/out", exist_ok=True)
    progress = Progress(names, f"{folder_of(names[-1])}/out/build.log", out)
    begun, before = time.time(), stamps(names)
    # Without stamps `rt run` would prove all below it anew.
    alone = [it for it in crates if it == TOOL and before]
    libraries = [it for it in names if it not in alone]
    with room_for(libraries) as room:
        try:
            prove(room, libraries, progress, built_now(before), at_once)
        finally:
            for it in progress.given:
                put(room, it, begun)
            stamp(progress.given, before)
    for it in alone:
        build_program(it, progress)


def build_program(crate, progress):
    """Proves and builds a program over the libraries in out/, as LLVM builds it, and has it do its stored run. `rt ci` would build it a second
    time, as Rattle's own compiler does."""
    begun, folder = time.time(), folder_of(crate)
    made = f"{folder}/out/{crate}"
    env = {name: value for name, value in os.environ.items() if name != "RT_BACKEND"}
    how = {"stdin": subprocess.DEVNULL, "stdout": subprocess.PIPE, "stderr": subprocess.STDOUT, "text": True, "errors": "replace"}
    # In a session of its own, so that Ctrl-C reaches this program alone.
    command = subprocess.Popen(["rt", "run", "--", "run"], cwd=folder, env=env, start_new_session=True, **how)
    try:
        for line in command.stdout:
            progress.note_said(line)
        status = command.wait()
    finally:
        command.terminate()
        command.wait()
    if status or not os.path.exists(made):
        raise told(progress, Failed(f"rt run of {crate} ended with {status}"))
    if said_of(made, folder) != read(f"{folder}/stdout"):
        # Nobody is to be answered by it.
        os.remove(made)
        raise Failed(f"{os.path.relpath(made)} prints otherwise than its stored run")
    # As old as what it was built of, so that a source that was changed since is newer.
    os.utime(made, (begun, begun))
    progress.note(crate)


def said_of(program, folder):
    """What a program prints with the stored words and input of its crate."""
    with open(f"{folder}/stdin", encoding="utf-8") as given:
        return subprocess.run([program, *read(f"{folder}/args").split("\n")[:-1]], stdin=given, stdout=subprocess.PIPE, text=True).stdout


def read(path):
    with open(path, encoding="utf-8") as it:
        return it.read()


def is_older(path, crate):
    """Whether a built file is older than a source of its crate or of one below."""
    made = os.path.getmtime(path)
    folders = [f"{folder_of(it)}/{part}" for it in [*repository.below([crate]), crate] for part in ("src", "specs", "proofs")]
    return any(os.path.getmtime(f"{at}/{name}") > made for folder in folders for at, _, names in os.walk(folder) for name in names)


def current(crate):
    """The path of a program that was built of the sources as they stand now."""
    path = f"{folder_of(crate)}/out/{crate}"
    if not os.path.exists(path) or is_older(path, crate):
        raise Untried(f"{os.path.relpath(path)} isn't there, or is older than its sources: the gate builds it{', or ./build' * (crate == 'regtool')}")
    return path


def built(crate, tests=False):
    """The path of a program as LLVM builds it, or of that of a crate's tests. It is proved and built first where it isn't there, or older than
    its sources."""
    path = f"{folder_of(crate)}/out/{crate}{'_tests' if tests else ''}"
    if not os.path.exists(path) or is_older(path, crate):
        tell(f"proving and building {crate} takes up to an hour")
        try:
            build(crate, out=sys.stderr)
        except Failed as why:
            raise Untried(why) from None
    return path
