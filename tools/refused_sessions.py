"""Steps by sessions where memory is refused, and sessions on threads at random whose memory is refused by chance."""
import os
import random
import subprocess
from collections import Counter

from refusing import numbers, run_as_one, run_threads, tell_counts
from repository import Untried, folder_of
from soaking import CRATE, TEST, numbered, tests, told

STEPS = (
    "sessions::refusals::a_change_refused_its_memory_moves_what_was_kept_back",
    "sessions::refusals::a_step_refused_its_memory_changes_nothing",
    "sessions::refusals::a_step_refused_its_memory_is_answered_when_made_again",
)
CALLBACKS = "sessions::alone::just_the_calls_that_a_callback_refuses_are_answered_so"
# The rounds, sessions and calls of the soak in the gate.
IN_GATE = 1, 64, 100
# So many calls each of few sessions makes, and of many.
CALLS, FEWEST = 1_600, 100
# What a test ends with where its own text, list or hive takes the allocation that is refused.
OWN_WANTS = (b"error: AllocError\n", b"error: AllocFailed { .. }\n", b"error: Memory\n")
FAILED = 101
# What a test says of a `drive` that is done. The start of its one thread takes one allocation, and the first start of a run one more.
ANSWERED, OF_THE_FIRST = b"drive: answered", 1


def built_by_the_gate():
    """The program of the tests as the gate built it."""
    program = f"{folder_of(CRATE)}/out/{CRATE}_tests"
    if not os.path.exists(program):
        raise Untried(f"the gate left no program of the tests of {CRATE}")
    return program


def refused_step(said):
    """What the test said next before and after an allocation was refused."""
    lines = [b"", *said.splitlines(), b""]
    at = lines.index(b"refused")
    return lines[at - 1], lines[at + 1]


def verdict(status, said):
    """What came of a test: the step that was refused its memory says so, or the test itself had none. A step that may be answered all the
    same says where it begins, and that it was."""
    if status == FAILED and any(b"\n" + it in said for it in OWN_WANTS):
        return "the test itself lacked it, outside of a call"
    before, after = refused_step(said)
    is_told = after.endswith(b": no memory") or before and after == before + b": answered"
    return after.decode() if status == 0 and b"test result: ok\n" in said and is_told else "WRONG"


def refuse_test(library, program, test, every):
    """Refuses allocations of a test, and prints what came of it. Answers whether all went well: of what a `drive` takes, only the start of
    its thread may be refused and passed over."""
    seen = Counter()
    drives = run_as_one(library, [program, test], 0)[1].count(ANSWERED)
    for number in numbers(every):
        status, said = run_as_one(library, [program, test], number)
        if b"refused\n" not in said:
            break
        found = verdict(status, said)
        seen[found] += 1
        if found == "WRONG":
            print(f"{test}: allocation {number}: status {status}, {said[-400:]!r}", flush=True)
    if seen[ANSWERED.decode()] > drives + OF_THE_FIRST:
        seen["WRONG"] += 1
        print(f"{test}: more is passed over than {drives} starts of threads")
    return tell_counts(test, seen) and (every > 1 or any(it.endswith("no memory") for it in seen))


def refuse_steps(library, every, program=None):
    return [refuse_test(library, program or tests(), it, every) for it in STEPS]


def run_callbacks():
    """Has callbacks refuse each kind of call by itself. Answers whether all went well."""
    ran = subprocess.run([tests(), CALLBACKS], stdin=subprocess.DEVNULL, stdout=subprocess.PIPE, stderr=subprocess.STDOUT, env={}, timeout=60)
    is_well = ran.returncode == 0 and b"test result: ok\n" in ran.stdout
    print(f"callbacks: {'each kind of call is refused by itself' if is_well else ran.stdout[-2000:]}", flush=True)
    return is_well


def soak(library, rounds, sessions, calls=None, program=None):
    """Has sessions on threads call at random for so many rounds, while their memory is refused by chance. Answers whether all went well."""
    seed, calls = random.SystemRandom().randrange(1, 1 << 40), calls or max(FEWEST, CALLS // sessions)
    # (of the entries 16 of each session open the roots, before there are threads)
    asked = seed, rounds, sessions, calls, 17 * sessions
    status, output, errors = run_threads(library, [program or tests(), TEST], seed, 60 + 2 * rounds, numbered(*asked))
    refusals = errors.count(b"R")
    is_well = status == 0 and told(*asked).encode() in output and refusals > 0
    print(f"soak: {rounds} rounds of {sessions} sessions with {calls} calls, seed {seed}: {refusals} refusals")
    if not is_well:
        print(f"soak: status {status}, {output[-300:]!r}, {errors[-300:]!r}")
    return is_well
