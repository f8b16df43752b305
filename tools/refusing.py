"""Runs a program whose memory is refused: one allocation of it, or some of its threads' by chance."""
import subprocess
import sys

from repository import WRONG

# No run takes so many allocations.
TOO_MANY = 1_000_000

# Loaded before the C library. REFUSE is the number of the one allocation that is refused, in any thread. REFUSE_THREADS is a number from
# which it is drawn in each thread which allocations are refused: the next one is the 10th to the 1,000th behind the last. Of the first
# thread none is, unless another one is at work.
COUNTING = r"""
#define _GNU_SOURCE
#include <errno.h>
#include <pthread.h>
#include <stdlib.h>
#include <sys/syscall.h>
#include <unistd.h>
extern void *__libc_malloc(size_t);
extern void *__libc_calloc(size_t, size_t);
extern void *__libc_realloc(void *, size_t);
extern void *__libc_memalign(size_t, size_t);
static long left;
static unsigned long drawn;
static long at_work;
static pthread_key_t key;
static __thread unsigned long state __attribute__((tls_model("initial-exec")));
static __thread long gap __attribute__((tls_model("initial-exec")));
static __thread int kind __attribute__((tls_model("initial-exec")));
static void leave(void *thread) {
    __atomic_sub_fetch(&at_work, 1, __ATOMIC_SEQ_CST);
}
__attribute__((constructor)) static void begin(void) {
    if (pthread_key_create(&key, leave)) _exit(98);
    const char *number = getenv("REFUSE"), *threads = getenv("REFUSE_THREADS");
    left = number ? atol(number) : 0;
    drawn = threads ? strtoul(threads, 0, 10) : 0;
}
static unsigned long draw(void) {
    state ^= state << 13;
    state ^= state >> 7;
    state ^= state << 17;
    return state;
}
static int refused_in_thread(void) {
    if (!kind) {
        unsigned long thread = syscall(SYS_gettid);
        kind = thread == (unsigned long)getpid() ? 1 : 2;
        state = drawn * 0x9E3779B97F4A7C15ul ^ thread * 0xD1B54A32D192ED03ul;
        gap = 10 + draw() % 991;
        if (kind == 2) {
            __atomic_add_fetch(&at_work, 1, __ATOMIC_SEQ_CST);
            if (pthread_setspecific(key, &key)) _exit(97);
        }
    }
    if ((kind == 1 && !__atomic_load_n(&at_work, __ATOMIC_SEQ_CST)) || --gap > 0) return 0;
    gap = 10 + draw() % 991;
    if (write(2, "R", 1) < 0) _exit(99);
    errno = ENOMEM;
    return 1;
}
static int refused(void) {
    if (drawn) return refused_in_thread();
    if (__atomic_load_n(&left, __ATOMIC_RELAXED) <= 0 || __atomic_sub_fetch(&left, 1, __ATOMIC_RELAXED) != 0) return 0;
    if (write(2, "refused\n", 8) < 0) _exit(99);
    errno = ENOMEM;
    return 1;
}
void *malloc(size_t size) { return refused() ? 0 : __libc_malloc(size); }
void *calloc(size_t count, size_t size) { return refused() ? 0 : __libc_calloc(count, size); }
void *realloc(void *old, size_t size) { return refused() ? 0 : __libc_realloc(old, size); }
void *aligned_alloc(size_t align, size_t size) { return refused() ? 0 : __libc_memalign(align, size); }
int posix_memalign(void **out, size_t align, size_t size) {
    if (refused()) return ENOMEM;
    *out = __libc_memalign(align, size);
    return *out ? 0 : ENOMEM;
}
"""


def run(library, words, given, number, folder=None):
    """Status, output, errors of a run, and whether an allocation was refused."""
    here = {"LD_PRELOAD": library, "REFUSE": str(number)}
    ran = subprocess.run(words, input=given, capture_output=True, env=here, timeout=60, cwd=folder)
    was_refused = b"refused\n" in ran.stderr
    return ran.returncode, ran.stdout, ran.stderr.replace(b"refused\n", b"", 1), was_refused


def run_as_one(library, words, number):
    """Status of a run, and its output and errors in the order in which they were written."""
    here = {"LD_PRELOAD": library, "REFUSE": str(number)}
    ran = subprocess.run(words, stdin=subprocess.DEVNULL, stdout=subprocess.PIPE, stderr=subprocess.STDOUT, env=here, timeout=60)
    return ran.returncode, ran.stdout


def run_threads(library, words, seed, limit, more):
    """Status, output, and errors of a run, in an environment with these variables too, whose threads are refused memory by chance, with an
    R for each refusal. It may take so many seconds. The numbers of threads are drawn from, too, so that no seed gives the same refusals
    again."""
    here = {**more, "LD_PRELOAD": library, "REFUSE_THREADS": str(seed)}
    ran = subprocess.run(words, stdin=subprocess.DEVNULL, capture_output=True, env=here, timeout=limit)
    return ran.returncode, ran.stdout, ran.stderr


def numbers(every):
    """The numbers of the allocations that are refused, each in a run of its own: all, or of so many the middle one. Where a run seems to take
    too many, whatever is wrong, the program says so and ends."""
    yield from range((every + 1) // 2, TOO_MANY, every)
    print(f"WRONG: of {TOO_MANY - 1:,} allocations each was there to be refused, and no run takes so many", flush=True)
    sys.exit(WRONG)


def tell_counts(what, seen):
    """Prints how many allocations were refused, and what came of them. Answers whether some were, and all went well."""
    print(f"{what}: {seen.total()} allocations refused")
    for found, times in sorted(seen.items()):
        print(f"    {times}: {found}", flush=True)
    return seen.total() > 0 and not seen["WRONG"]
