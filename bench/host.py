"""A call of the C libraries compared with a start of the program, in microseconds of processor time: what a host saves
that does not start a process for each text.

Each figure is the best of several rounds or starts. A small program in C, which is made for it, calls the libraries.
The program is started by `posix_spawn`, and only what its own process takes is counted.
"""
import os
import subprocess
import sys

from measure import ROOT, folder, program

STARTS = 100
MOST_OF_PROGRAM = 0.2

CODE = r"""
#include <stdio.h>
#include <stdlib.h>
#include <string.h>
#include <time.h>
#include "talc.h"

static uint8_t text[1 << 20], room[1 << 22];
static talc_guest guest;

static uint32_t once(const char *call, size_t n) {
    if (!strcmp(call, "check")) return talc_check(text, n).status;
    if (!strcmp(call, "run")) return talc_run(text, n, 1000).status;
    if (!strcmp(call, "slice")) return talc_guest_run(&guest, 1).status & ~4u;
    if (!strcmp(call, "field")) return talc_guest_field(&guest, 0, 0).kind == TALC_NONE;
    if (!strcmp(call, "typeof")) return talc_typeof(text, n, room, sizeof room).status;
    if (!strcmp(call, "eval")) return talc_eval(text, n, 1000, room, sizeof room).status;
    if (!strcmp(call, "compile")) return talc_compile(text, n, 0, room, sizeof room).status;
    return talc_explain(text, n, room, sizeof room).status;
}

int main(int count, char **words) {
    FILE *file = fopen(words[2], "rb");
    size_t n = file ? fread(text, 1, sizeof text, file) : 0;
    long calls = count > 3 ? atol(words[3]) : 1;
    double best = 1e9;
    talc_guest_init(&guest);
    int of_guest = !strcmp(words[1], "slice") || !strcmp(words[1], "field");
    if (of_guest && talc_guest_load(&guest, text, n).status) return 1;
    for (int round = 0; round < 7; round++) {
        struct timespec a, b;
        clock_gettime(CLOCK_PROCESS_CPUTIME_ID, &a);
        for (long i = 0; i < calls; i++)
            if (once(words[1], n)) return 1;
        clock_gettime(CLOCK_PROCESS_CPUTIME_ID, &b);
        double took = ((b.tv_sec - a.tv_sec) * 1e6 + (b.tv_nsec - a.tv_nsec) / 1e3) / calls;
        if (took < best) best = took;
    }
    talc_guest_clear(&guest);
    printf("%.3f\n", best);
    return 0;
}
"""

# The call, the words of the program, the file, and how many calls make a round.
CALLS = [
    ("check", ["check", "IN"], "factorial.tal", 2000),
    ("run", ["run", "IN", "--fuel", "1000"], "factorial.tal", 2000),
    ("slice", None, "factorial.tal", 100000),
    ("field", None, "data.tal", 100000),
    ("typeof", ["typeof", "IN"], "factorial.f", 500),
    ("eval", ["eval", "IN", "--turns", "1000"], "factorial.f", 500),
    ("compile", ["compile", "IN", "OUT"], "factorial.f", 200),
    ("explain", ["explain", "IN"], "factorial.f", 500),
    ("compile", ["compile", "IN", "OUT"], "interpreter.f", 20),
]


def built(place):
    """The program in C over the two libraries."""
    with open(f"{place}/calls.c", "w", encoding="utf-8") as file:
        file.write(CODE)
    if subprocess.run([f"{ROOT}/host/libraries", f"{place}/lib"], check=False).returncode:
        sys.exit("the libraries are missing: tools/build --library tal_c, and talc_c, makes them")
    libraries = [f"{place}/lib/libtalc_c.a", f"{place}/lib/libtal_c.a"]
    words = ["cc", "-O2", f"-I{ROOT}/host", "-o", f"{place}/calls", f"{place}/calls.c", *libraries]
    subprocess.run(words, check=True)
    return f"{place}/calls"


def started(words):
    """The microseconds of a process of the program, the best of several."""
    nothing = [(os.POSIX_SPAWN_OPEN, 1, "/dev/null", os.O_WRONLY, 0)]
    took = []
    for _ in range(STARTS):
        _, status, used = os.wait4(os.posix_spawn(words[0], words, os.environ, file_actions=nothing), 0)
        took.append(used.ru_utime + used.ru_stime)
        if status:
            sys.exit(f"{' '.join(words)}: status {status}")
    return 1e6 * min(took)


def main():
    talc = program()
    with folder() as place:
        calls = built(place)
        print(f"{'processor microseconds':34}{'library':>10}{'program':>10}")
        for call, words, name, count in CALLS:
            path = f"{ROOT}/examples/{name}"
            said = subprocess.run([calls, call, path, str(count)], stdout=subprocess.PIPE, check=True, text=True).stdout
            by_library = float(said)
            line = f"{call + ' ' + name:34}{by_library:10.2f}"
            if words:
                names = {"IN": path, "OUT": f"{place}/out"}
                by_program = started([talc, *(names.get(it, it) for it in words)])
                part = by_library / by_program
                slow = ": slow" if name.startswith("factorial") and part > MOST_OF_PROGRAM else ""
                line += f"{by_program:10.1f}  {part:.3f}{slow}"
            print(line)


main()
