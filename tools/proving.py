"""In which order ./build proves libraries, and with how many jobs: each by a `rt ci NAME` of its own, once all below it are kept.

What stands on one another is proved one after another, so the longest such chain tells when the build can end. Its next crate may have
several jobs, as many as the kit allows it, and so may one of a chain that is nearly as long. The others, side by side, get one each, which
is the cheapest, and of the processors what these leave. One `rt ci` for all can't do so: it gives each check one job, or else counts up to
four times the memory that a check takes, and leaves processors idle.
"""
import os
import signal
import subprocess
import tempfile
import time
from contextlib import suppress
from glob import glob

from repository import Failed, below, crates, folder_of

# A chain with so much of the longest one's lines is nearly as long.
NEAR = 0.8
# How nice a check is of a crate that the longest chain need not wait for.
BEHIND = "10"
PAUSE = 0.1
KEPT = "passed, and that is kept."


def chains(names):
    """For each crate how many lines of code are proved one after another from it on, along the longest chain of what stands on it."""
    uses, long = crates(), {}
    for name in reversed(names):
        long[name] = lines_of(name) + max((long[it] for it in long if name in uses[it]), default=0)
    return long


def lines_of(crate):
    """How many lines of code a crate has."""
    count = 0
    for path in glob(f"{folder_of(crate)}/src/**/*.rt", recursive=True):
        with open(path, "rb") as lines:
            count += sum(1 for _ in lines)
    return count


def with_jobs(checks):
    """The environment in which `rt ci` has so many checks at once, each with one job; or, where that is None, as many of both as it chooses."""
    given = {it: value for it, value in os.environ.items() if it != "RT_JOBS"}
    return given if checks is None else {**given, "RT_JOBS": str(checks)}


class Check:
    """A `rt ci` of one crate in a room, at work."""

    def __init__(self, room, crate, is_first, has_jobs):
        self.crate, self.is_placed, self.said = crate, is_first, tempfile.TemporaryFile("w+", encoding="utf-8", errors="replace")
        # In a session of its own, so that Ctrl-C reaches this program alone.
        how = {"cwd": room, "env": with_jobs(None if has_jobs else 1), "stdin": subprocess.DEVNULL, "stdout": self.said, "stderr": subprocess.STDOUT}
        nice = [] if is_first else ["nice", "-n", BEHIND]
        self.command = subprocess.Popen([*nice, "rt", "ci", crate], start_new_session=True, **how)

    def stay_behind(self):
        """Puts its session behind those of others, unless that is done or its crate goes first. Where Linux shares processors out among
        sessions, `nice` tells within one alone; and it takes few of these notes a second, so this is tried again."""
        with suppress(OSError):
            if not self.is_placed:
                with open(f"/proc/{self.command.pid}/autogroup", "w", encoding="utf-8") as share:
                    share.write(BEHIND)
                self.is_placed = True

    def has_ended(self):
        return self.command.poll() is not None

    def text(self):
        """What it said, once it has ended."""
        self.said.seek(0)
        return self.said.read()

    def end(self):
        if not self.has_ended():
            os.killpg(self.command.pid, signal.SIGTERM)

    def close(self):
        self.command.wait()
        self.said.close()


def is_on_longest(crate, long, others):
    """Whether no chain that begins with one of the others is much longer than this crate's."""
    return long[crate] >= NEAR * max(long[it] for it in [crate, *others])


def is_chain(names):
    """Whether of these crates, lowest first, each stands on the one before."""
    return all(low in below([high]) for low, high in zip(names, names[1:]))


def prove_by_chains(room, names, built, at_once, note):
    """Proves crates of a room but for those that are built, side by side, so many at once at most, and calls `note` with what `rt` said of each.

    Gives which are left for one `rt ci`: a chain, each of which gets several jobs there anyway; or all, where the kit keeps nothing, or
    has no run of one crate, as under CI. Raises `Failed` where a crate isn't proved.
    """
    uses, long = crates(), chains(names)
    left, done, running = sorted(set(names) - set(built), key=lambda it: -long[it]), set(built), []
    if os.environ.get("CI") == "true":
        return list(names)
    try:
        while running or not is_chain(left):
            ready = [it for it in left if done.issuperset(uses[it])]
            for crate in ready[: at_once - len(running)]:
                left.remove(crate)
                is_first = is_on_longest(crate, long, [*left, *(it.crate for it in running)])
                running.append(Check(room, crate, is_first, is_first and at_once > 1))
            time.sleep(PAUSE)
            for check in running:
                check.stay_behind()
            for check in [it for it in running if it.has_ended()]:
                running.remove(check)
                said = check.text()
                check.close()
                note(said)
                if check.command.returncode:
                    raise Failed(f"rt ci {check.crate} ended with {check.command.returncode}")
                if KEPT not in said:
                    return list(names)
                done.add(check.crate)
    finally:
        for it in running:
            it.end()
        for it in running:
            it.close()
    return left
