"""Refused memory: each allocation of a command is refused once, in a run of its own, over two dozen inputs. Of a
command that allocates more than two thousand times, as `gen` does, some two thousand are refused, the last ones among
them. Some programs make millions of tuples, so that their heap grows and is collected on the way. Of these each
allocation is refused once, and in another run it and all after it.

The goal: each run ends as with ample memory, or with status 7. Then nothing is on the output, and the line
`out of memory` or nothing is on the error output. No file has changed, except that `gen` may have written its source.
It prints how many refusals it tried, and ends with 1 where one was answered otherwise. It needs a C compiler: its
allocator is put in front of that of the C library, for the program alone.
"""
import os
import subprocess
import sys
from measure import available, folder, program

SHIM = r"""
#define _GNU_SOURCE
#include <dlfcn.h>
#include <errno.h>
#include <stdlib.h>
#include <stdio.h>
#include <string.h>
#include <unistd.h>
#include <fcntl.h>
static long made, refused = -2, last;
static int refuses(void) {
    if (refused == -2) {
        const char *at = getenv("REFUSED");
        refused = at ? atol(at) : -1;
        last = getenv("REFUSED_ON") ? 1L << 40 : refused;
    }
    long now = made++;
    return refused >= 0 && refused <= now && now <= last;
}
static void *(*real_malloc)(size_t), *(*real_realloc)(void *, size_t), *(*real_calloc)(size_t, size_t);
static void *(*real_aligned)(size_t, size_t);
static int (*real_posix)(void **, size_t, size_t);
static void *found(const char *name) { return dlsym(RTLD_NEXT, name); }
void *malloc(size_t n) {
    if (!real_malloc) *(void **)&real_malloc = found("malloc");
    if (refuses()) { errno = ENOMEM; return 0; }
    return real_malloc(n);
}
void *realloc(void *p, size_t n) {
    if (!real_realloc) *(void **)&real_realloc = found("realloc");
    if (refuses()) { errno = ENOMEM; return 0; }
    return real_realloc(p, n);
}
void *calloc(size_t n, size_t m) {
    static char early[4096]; static size_t used;
    if (!real_calloc) {
        static int within;
        if (within) { void *p = early + used; used += (n * m + 15) & ~(size_t)15; return p; }
        within = 1; *(void **)&real_calloc = found("calloc"); within = 0;
    }
    if (refuses()) { errno = ENOMEM; return 0; }
    return real_calloc(n, m);
}
void *aligned_alloc(size_t a, size_t n) {
    if (!real_aligned) *(void **)&real_aligned = found("aligned_alloc");
    if (refuses()) { errno = ENOMEM; return 0; }
    return real_aligned(a, n);
}
int posix_memalign(void **p, size_t a, size_t n) {
    if (!real_posix) *(void **)&real_posix = found("posix_memalign");
    if (refuses()) return ENOMEM;
    return real_posix(p, a, n);
}
__attribute__((destructor)) static void told(void) {
    const char *path = getenv("COUNTED");
    if (path) {
        char text[32];
        int n = snprintf(text, sizeof text, "%ld", made);
        int f = open(path, O_CREAT | O_WRONLY | O_TRUNC, 0600);
        if (f >= 0) { if (write(f, text, n) < 0) {} close(f); }
    }
}
"""

FACTORIAL = "(fix f(n:int):int. if0(n, 1, n * f(n - 1))) 5"
POLYMORPHIC = "((gen a. fix f(x:a):int -> a. fix g(y:int):a. x)[int] 8) 1"
PACKED = (
    "open [a, x] = pack[int, <3, fix f(y:int):int. y + 1>] as some a. <a, a -> int> in let g = #2 x in g (#1 x)"
)
CELLS = "let c = ref 5 in let u = c := !c + 2 in !c"
# Seven cells, for which no eight registers are enough.
MANY = "".join(f"let c{i} = ref {i} in " for i in range(1, 8)) + "if0(!c1, 1, !c2 + !c3 + !c4 + !c5 + !c6 + !c7)"
LOOP = "tal 1\nL0: code[]{}.\njmp L0\n"
TUPLE = "tal 1\nL0: code[]{}.\nmalloc r1[int]\nmov r2, 5\nst r1[0], r2\nld r1, r1[0]\nhalt[int]\n"
PACKAGE = (
    "tal 1\nL0: code[]{}.\nmov r1, pack[int, 3] as some a. a\nunpack[b, r2], r1\nmov r1, L1[b]\nmov r3, 7\n"
    "jmp L1[int]\n"
    "L1: code[a]{r3:int}.\nmov r1, r3\nhalt[int]\n"
)
DATA = (
    "tal 2\nD0: data <5 : int, D1 : <int^1>>\nD1: data <6 : int>\n"
    "L0: code[]{}.\nmov r2, D0\nld r3, r2[1]\nld r1, r3[0]\nhalt[int]\n"
)

# Three million pairs that are dropped at once, and one and a half that are kept in a list, beside as many that are not.
DROPPED = (
    "tal 1\nL0: code[]{}.\nmov r1, 3000000\njmp L1\nL1: code[]{r1:int}.\nmalloc r2[int, int]\nst r2[0], r1\n"
    "sub r1, r1, 1\nbnz r1, L1\nhalt[int]\n"
)
KEPT = (
    "tal 1\nL0: code[]{}.\nmov r1, 1500000\nmalloc r2[]\njmp L1[<>]\nL1: code[a]{r1:int, r2:a}.\nmalloc r3[int, a]\n"
    "malloc r4[int, int]\nst r3[0], r1\nst r3[1], r2\nmov r2, r3\nsub r1, r1, 1\nbnz r1, L1[<int^1, a^1>]\n"
    "halt[int]\n"
)

# Of a command that allocates more often than this, some allocations are left out.
MOST = 2000

# The words after the program's name, and the text of the file IN.
CASES = [
    ("compile IN OUT", "7"), ("compile IN OUT", FACTORIAL), ("compile IN OUT", POLYMORPHIC),
    ("compile IN OUT", "1 + <>"), ("typeof IN", "fix f(x:<int, all a. a -> a>):int. #1 x"), ("typeof IN", "(1 +"),
    ("typeof IN", "pack[int, ref 3] as some a. ref a"), ("typeof IN", "(ref 1) := <>"),
    ("compile IN OUT", PACKED), ("compile IN OUT", CELLS), ("compile IN OUT", "pack[int, 1] as int"),
    ("compile --registers 8 IN OUT", FACTORIAL), ("compile --registers 8 IN OUT", MANY),
    ("compile --registers 8 IN OUT", "1 + <>"), ("compile --registers 7 IN OUT", "7"),
    ("eval IN --turns 6", PACKED), ("eval IN --turns 6", CELLS),
    ("eval IN --turns 6", FACTORIAL),
    ("eval IN --turns 5", FACTORIAL), ("check IN", PACKAGE), ("check IN", "tal 1\nL0: code[]{}.\nhalt[int]\n"),
    ("run IN --fuel 5", TUPLE), ("run IN --fuel 10", LOOP), ("run IN", LOOP), ("check NONE", LOOP),
    ("upgrade IN OUT", PACKAGE), ("upgrade IN OUT", DATA), ("run IN --fuel 3", DATA),
    ("trace IN --from 0 --to 5", PACKAGE), ("trace IN --from 2 --to 3", DATA), ("trace IN --from 0 --to 4", LOOP),
    ("trace IN --from 9 --to 4", LOOP), ("trace IN --from 0 --to 9", "tal 1\nL0: code[]{}.\nhalt[int]\n"),
    ("trace IN --from 0", LOOP), ("trace NONE --from 0 --to 9", LOOP),
    ("gen --seed 0 OUT", ""),
]

# The same, of programs whose heap is collected.
COLLECTED = [("run IN --fuel 100000000", DROPPED), ("run IN --fuel 100000000", KEPT)]


def before(words, text):
    """The files before a run, by name: IN has its text, and OUT something else."""
    files = [("IN", text.encode()), ("OUT", b"as before\n")]
    return {name: content for name, content in files if name in words.split()}


class Outcome:
    """The status of a run, what stands on its two outputs, and the files of its folder."""

    def __init__(self, talc, shim, place, words, text, refused=None, goes_on=False):
        for name in os.listdir(place):
            os.remove(f"{place}/{name}")
        for name, content in before(words, text).items():
            with open(f"{place}/{name}", "wb") as file:
                file.write(content)
        env = {"LD_PRELOAD": shim, "COUNTED": f"{place}.count"}
        if refused is not None:
            env["REFUSED"] = str(refused)
        if goes_on:
            env["REFUSED_ON"] = "1"
        run = subprocess.run([talc, *words.split()], cwd=place, env=env, capture_output=True, timeout=60)
        self.status, self.out, self.err = run.returncode, run.stdout, run.stderr
        self.files = {name: open(f"{place}/{name}", "rb").read() for name in sorted(os.listdir(place))}

    def is_as(self, ample):
        return (self.status, self.out, self.err, self.files) == (ample.status, ample.out, ample.err, ample.files)

    def is_want(self, words, text, ample):
        """Memory was wanted, and the files are as before, or those of `gen` as with ample memory."""
        written = words.startswith("gen ") and self.files == ample.files
        return (
            self.status == 7 and self.out == b"" and self.err in (b"", b"out of memory\n")
            and (written or self.files == before(words, text))
        )


def chosen(count):
    """The allocations that are refused, each in a run of its own: all, or of many the last and some evenly before."""
    last = max(0, count - MOST // 10)
    return [*range(0, last, last // MOST + 1), *range(last, count)]


def tried(talc, shim, place, words, text, goes_on):
    """Refuses allocations of a command in turn: how many, those that were answered by want of memory, and wrongly."""
    ample = Outcome(talc, shim, f"{place}/run", words, text)
    with open(f"{place}/run.count", encoding="ascii") as file:
        count = int(file.read())
    wants = wrong = 0
    for at in chosen(count):
        got = Outcome(talc, shim, f"{place}/run", words, text, at, goes_on)
        if got.is_want(words, text, ample):
            wants += 1
        elif not got.is_as(ample):
            wrong += 1
            print(f"{words} on {text[:40]!r}, allocation {at} refused: status {got.status}, {got.out!r}, {got.err!r}")
    print(
        f"{words}, status {ample.status}: {count} allocations, {len(chosen(count))} refused"
        f"{' with all after them' if goes_on else ''}, {wants} answered by status 7"
    )
    return len(chosen(count)), wants, wrong


def main():
    talc, compiler = program(), available("cc")
    with folder() as place:
        shim = f"{place}/shim.so"
        with open(f"{place}/shim.c", "w", encoding="ascii") as file:
            file.write(SHIM)
        subprocess.run([compiler, "-O1", "-shared", "-fPIC", "-o", shim, f"{place}/shim.c", "-ldl"], check=True)
        os.mkdir(f"{place}/run")
        cases = [(*it, False) for it in CASES + COLLECTED] + [(*it, True) for it in COLLECTED]
        found = [tried(talc, shim, place, *it) for it in cases]
    refusals, wants, wrong = (sum(it) for it in zip(*found))
    print(f"{refusals} refusals tried, {wants} answered by status 7, {wrong} answered wrongly")
    sys.exit(1 if wrong else 0)


main()
