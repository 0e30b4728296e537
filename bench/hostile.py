"""Texts that are made to be slow: `talc check` and `talc run --fuel 0`, which loads, on each at two sizes.

The second size is ten times the first, and the first is large enough that each takes 0.05 seconds or more. The goals:
each text is accepted; ten times the text takes at most 13 times the time; and each byte of text takes at most 200 bytes
of memory. Two texts ask for more than their length. They are compared with the parts of types that they ask for, and
not with their bytes. A row that misses a goal says so.

The two sizes are run in turn. The time of a text is the least of its runs, less that of a text of one jump. A run ends
after 60 seconds of processor time or at 8 GB. Names of texts may be given, for these alone; without any, all are run.

Where a text misses the time alone, its instructions are counted too, at a quarter of both sizes, if valgrind is
installed. With at most 13 times as many it is not a slow text: its tables no longer fit into the cache. The row says
so.
"""
import math
import re
import shutil
import subprocess
import sys
from measure import LEAST_SECONDS, Run, folder, program

SECONDS, BYTES = 60, 8 << 30
MOST_TIMES, MOST_BYTES, MOST_TEXT = 13, 200, 50_000_000
RUNS = 5
HEAD = "tal 1\nL0: code[]{}.\n"


def falling(n):
    """Registers that are set in falling order."""
    return HEAD + "".join(f"mov r{i}, 1\n" for i in range(n, 0, -1)) + "jmp L0\n"


def wide(n, moves):
    fields = ", ".join(["int"] * n)
    return HEAD + f"malloc r1[{fields}]\n" + "".join(moves) + "jmp L0\n"


def one_register(n):
    """A wide tuple, moved again and again to one register."""
    return wide(n, ["mov r2, r1\n"] * (n // 4))


def many_registers(n):
    """A wide tuple, moved to many registers."""
    return wide(n, [f"mov r{i + 2}, r1\n" for i in range(n // 4)])


def after_unpacks(n):
    """A wide tuple, moved to many registers after as many unpacks."""
    opened = "".join(f"unpack[a{i}, r2], pack[int, 1] as some b. b\n" for i in range(n // 4))
    return wide(n, [opened] + [f"mov r{i + 3}, r1\n" for i in range(n // 4)])


def fills(n):
    """A wide tuple of which each field is filled, and then read."""
    return wide(n, ["mov r2, 1\n"] + [f"st r1[{i}], r2\n" for i in range(n)] + [f"ld r3, r1[{i}]\n" for i in range(n)])


def filled_moves(n):
    """A wide tuple that is moved after each of its fields is filled."""
    return wide(n, ["mov r2, 1\n"] + [f"st r1[{i}], r2\nmov r3, r1\n" for i in range(n)])


def arguments(n):
    """One application to many types, of a block with as many registers."""
    names = ", ".join(f"a{i}" for i in range(n))
    regs = ", ".join(f"r{i + 1}:a{i}" for i in range(n))
    types = ", ".join(["int"] * n)
    return HEAD + f"mov r1, L1[{types}]\njmp L0\nL1: code[{names}]{{{regs}}}.\njmp L0\n"


def deep(n):
    """Many types as deep as they may nest."""
    some = "".join(f"some a{i}. " for i in range(1900))
    return HEAD + "".join(f"malloc r{i + 1}[{some}a0]\n" for i in range(n)) + "jmp L0\n"


def unpacks(n):
    """Many unpacks, with a register from before each of them."""
    lines = [f"unpack[a, r{i + 2}], pack[int, 1] as some b. b\nmov r1, r{i // 2 + 2}\n" for i in range(n)]
    return HEAD + "".join(lines) + "jmp L0\n"


def file_of(first, count):
    """A file of so many registers, from this one on."""
    return ", ".join(f"r{first + i}:int" for i in range(count))


def set_all(count):
    return "".join(f"mov r{i + 1}, 1\n" for i in range(count))


def wide_jumps(n):
    """Many jumps to a block with a wide file."""
    each = max(2, int(n ** 0.5))
    return HEAD + set_all(each) + "bnz r1, L1\n" * (n // 4) + f"jmp L1\nL1: code[]{{{file_of(1, each)}}}.\njmp L1\n"


def changed_jumps(n):
    """Many jumps to a block with a wide file, a register of which is set before each."""
    each = max(2, int(n ** 0.5))
    jumps = "".join(f"mov r{i % each + 1}, 1\nbnz r1, L1\n" for i in range(n // 4))
    return HEAD + set_all(each) + jumps + f"jmp L1\nL1: code[]{{{file_of(1, each)}}}.\njmp L1\n"


def two_files(n):
    """Many jumps to two blocks with wide files in turn, where a register of one of them is set before each."""
    each = max(2, int(n ** 0.5))
    jumps = "".join(f"mov r{i % (2 * each) + 1}, 1\nbnz r1, L{i % 2 + 1}\n" for i in range(n // 4))
    blocks = "".join(f"L{i + 1}: code[]{{{file_of(i * each + 1, each)}}}.\njmp L{i + 1}\n" for i in range(2))
    return HEAD + set_all(2 * each) + jumps + "jmp L1\n" + blocks


def unpacked_jumps(n):
    """Many jumps to a block with a wide file, with an unpack before each."""
    each = max(2, int(n ** 0.5))
    jumps = "".join(f"unpack[a, r{each + 1}], pack[int, 1] as some b. b\nbnz r1, L1\n" for _ in range(n // 4))
    return HEAD + set_all(each) + jumps + f"jmp L1\nL1: code[]{{{file_of(1, each)}}}.\njmp L1\n"


def wide_data(n):
    """A wide data tuple, whose fields all have flag 1."""
    return "tal 2\nD0: data <" + ", ".join(["1:int"] * n) + ">\nL0: code[]{}.\n"


def wide_type(n):
    """A tuple type that promises half of the fields of that tuple."""
    return "<" + ", ".join(f"int^{i % 2}" for i in range(n)) + ">"


def same_pair_jumps(n):
    """Many jumps with a wide tuple that is another type than the one that the file names, and fits it."""
    jumps = "mov r1, D0\nbnz r2, L1\n" * (n // 4)
    return wide_data(n) + "mov r2, 1\n" + jumps + f"jmp L0\nL1: code[]{{r1:{wide_type(n)}}}.\njmp L1\n"


def same_pair_stores(n):
    """The same by `st` to a field of that type."""
    stores = "st r3[0], r1\n" * (n // 4)
    return wide_data(n) + f"mov r1, D0\nmalloc r3[{wide_type(n)}]\n" + stores + "jmp L0\n"


OPENED = "unpack[b, r9], pack[int, 1] as some b. b\n"


def open_type(n):
    """A tuple type of so many fields in which the name `a` is free."""
    return "<" + ", ".join(["a^1"] + ["int^1"] * n) + ">"


def open_loads(n, before=""):
    """Many loads of a field whose type is wide and has a free name."""
    loads = "ld r2, r1[0]\n" * (n // 4)
    return HEAD + f"jmp L0\nL1: code[a]{{r1:<{open_type(n)}^1>}}.\n{before}{loads}jmp L0\n"


def opened_loads(n):
    """The same after an unpack, where each type read is another one than that of the header."""
    return open_loads(n, OPENED)


def open_jumps(n, before=""):
    """Many jumps to a register whose type is wide and has a free name."""
    regs = f"r1:{open_type(n)}, r2:int, r3:all[]{{r1:{open_type(n)}}}"
    return HEAD + f"jmp L0\nL1: code[a]{{{regs}}}.\n{before}" + "bnz r2, r3\n" * (n // 4) + "jmp L0\n"


def opened_jumps(n):
    """The same after an unpack."""
    return open_jumps(n, OPENED)


def filled(n):
    """A tuple of n fields of which the first is filled, in r3, and its type."""
    wanted = "<" + ", ".join(["int^1"] + ["int^0"] * (n - 1)) + ">"
    return f"malloc r3[{', '.join(['int'] * n)}]\nmov r2, 1\nst r3[0], r2\n", wanted


def filled_sets(n):
    """A tuple that is filled in part, moved again and again to a register before a jump to a file that names it."""
    made, wanted = filled(n)
    sets = "".join(f"mov r{i + 4}, 1\n" for i in range(n // 2 + 2))
    regs = f"r1:{wanted}, " + file_of(4, n // 2 + 2)
    moves = "mov r1, r3\n"
    return HEAD + made + moves + sets + f"bnz r2, L1\n{moves * (n // 2)}jmp L1\nL1: code[]{{{regs}}}.\njmp L0\n"


def filled_registers(n):
    """One jump to a file of many registers, which all have the same tuple that is filled in part."""
    made, wanted = filled(n)
    sets = "".join(f"mov r{i + 4}, r3\n" for i in range(n // 4))
    regs = ", ".join(f"r{i + 4}:a" for i in range(n // 4))
    return HEAD + made + sets + f"jmp L1[{wanted}]\nL1: code[a]{{{regs}}}.\njmp L0\n"


def filled_stores(n):
    """A tuple that is filled in part, stored again and again."""
    made, wanted = filled(n)
    return HEAD + made + f"malloc r4[{wanted}]\n" + "st r4[0], r3\n" * (n // 2) + "jmp L0\n"


def fills_in_disorder(n):
    """A wide tuple of which each field is filled, in an order by strides."""
    stores = "".join(f"st r1[{i * 7919 % n}], r2\n" for i in range(n))
    return wide(n, ["mov r2, 1\n", stores])


def depths(n):
    return min(1900, n // 30)


def put_at_depths(n):
    """A wide type with a free name, put under each of many numbers of binders."""
    file = "{r1:a}"
    for _ in range(depths(n)):
        file = f"{{r1:a, r2:all[b]{file}}}"
    return HEAD + f"jmp L0\nL1: code[a]{{}}.\nmov r1, L2[{open_type(n)}]\njmp L0\nL2: code[a]{file}.\njmp L0\n"


def applied_again(n):
    """A label with a wide file, applied again and again to the same type."""
    return HEAD + "mov r1, L1[int]\n" * (n // 2) + f"jmp L0\nL1: code[a]{{{file_of(1, n)}}}.\njmp L0\n"


def names(n):
    """Long lists of names, in a header and in the types of a register."""
    some = ", ".join(f"a{i}" for i in range(n))
    return HEAD + f"jmp L0\nL1: code[{some}]{{r1:all[{some}]{{r1:a0}}}}.\njmp L0\n"


TEXTS = [
    (falling, 20_000), (one_register, 40_000), (many_registers, 40_000), (after_unpacks, 20_000), (fills, 10_000),
    (filled_moves, 10_000), (arguments, 10_000), (deep, 20), (unpacks, 10_000), (wide_jumps, 80_000),
    (changed_jumps, 40_000), (two_files, 40_000), (unpacked_jumps, 40_000), (same_pair_jumps, 20_000),
    (same_pair_stores, 20_000), (open_loads, 40_000), (opened_loads, 40_000), (open_jumps, 20_000),
    (opened_jumps, 20_000), (names, 20_000), (filled_sets, 5_000), (filled_registers, 5_000), (filled_stores, 5_000),
    (applied_again, 10_000),
]
# Texts that ask for more than their own length (docs/COSTS.md): for how many parts of types, and why.
LARGER = [
    (
        fills_in_disorder, 10_000, lambda n: n * math.log2(n),
        "a field that is filled makes parts of a set, the binary logarithm of its number many",
    ),
    (put_at_depths, 2_000, lambda n: n * depths(n), "the type is another one at each depth"),
]


def measured(words, wanted):
    """Processor seconds and peak bytes of one run, and whether its status is another than the one wanted."""
    run = Run(words, SECONDS, BYTES)
    return run.seconds, run.peak, run.status != wanted


def least(commands, times=RUNS):
    """For each command, run in turn with the others: its least seconds, its most bytes, whether a status was wrong."""
    runs = [[] for _ in commands]
    for _ in range(times):
        for mine, (words, wanted) in zip(runs, commands):
            mine.append(measured(words, wanted))
    columns = [list(zip(*mine)) for mine in runs]
    return [(min(seconds), max(peaks), any(wrong)) for seconds, peaks, wrong in columns]


def commands_of(talc, path):
    return [([talc, "check", path], 0), ([talc, "run", path, "--fuel", "0"], 4)]


def put(path, text):
    with open(path, "w", encoding="ascii") as file:
        return file.write(text)


class Pair:
    """A text at two sizes, the second ten times the first: its bytes, the files that hold it, and what it asks for,
    in bytes of text or, where more is asked, in parts of types."""

    def __init__(self, make, n, paths, asks):
        self.name, self.paths = make.__name__, paths
        self.small, self.large = put(paths[0], make(n)), put(paths[1], make(10 * n))
        self.asked = (asks(n), asks(10 * n)) if asks else (self.small, self.large)

    def most_times(self):
        return MOST_TIMES * self.asked[1] / self.asked[0] / 10

    def runs(self, talc):
        """Of each command: its run on the small text and on the large one."""
        runs = least(commands_of(talc, self.paths[0]) + commands_of(talc, self.paths[1]))
        return list(zip(runs[:2], runs[2:]))

    def instructions(self, talc):
        """Of each command: how many times the instructions of the small text the large one takes."""
        few, many = ([instructions(words) for words, _ in commands_of(talc, path)] for path in self.paths)
        return [b / a for a, b in zip(few, many)]


def instructions(words):
    """The instructions of one run, as valgrind counts them."""
    words = ["valgrind", "--tool=cachegrind", "--cache-sim=no", "--cachegrind-out-file=/dev/null", *words]
    run = subprocess.run(words, stdout=subprocess.DEVNULL, stderr=subprocess.PIPE, text=True)
    return int(re.search(r"I\s+refs:\s+([\d,]+)", run.stderr)[1].replace(",", ""))


def by_cache(talc, make, n, paths, asks):
    """What a row says of a text that takes too many times the time, but not the instructions; None where these too are
    too many, or cannot be counted."""
    if not shutil.which("valgrind"):
        return None
    pair = Pair(make, n // 4, paths, asks)
    grown = pair.instructions(talc)
    if max(grown) > pair.most_times():
        return None
    return f" (by the cache: {max(grown):.1f} times the instructions at {pair.large / pair.small:.2f} times the text)"


def report(talc, make, n, paths, bases, asks=None, why=""):
    """One line of figures of a text at two sizes, with what it misses, and why it asks for more where it does."""
    pair = Pair(make, n, paths, asks)
    runs = [(a, b, base) for (a, b), base in zip(pair.runs(talc), bases)]
    times = [(b[0] - base[0]) / max(a[0] - base[0], 1e-6) for a, b, base in runs]
    memory = max(max(0, b[1] - base[1]) / pair.asked[1] for _, b, base in runs)
    cache = by_cache(talc, make, n, paths, asks) if max(times) > pair.most_times() else ""
    asked = f", {pair.asked[1] / pair.asked[0]:.2f} times what it asks for ({why})" if asks else ""
    misses = [
        ("not accepted", any(a[2] or b[2] for a, b, _ in runs)),
        ("slow", cache is None),
        ("large", memory > MOST_BYTES),
        ("too short to say", min(a[0] - base[0] for a, _, base in runs) < LEAST_SECONDS),
    ]
    wrong = [word for word, is_so in misses if is_so]
    print(
        f"{pair.name}: {pair.small} bytes in {runs[0][0][0]:.3f} s, {pair.large} in {runs[0][1][0]:.3f} s; "
        f"{pair.large / pair.small:.2f} times the text{asked}, {times[0]:.1f} times the time to check, {times[1]:.1f} to "
        f"load{cache or ''}, {memory:.0f} bytes of memory a {'part' if asks else 'byte'}"
        f"{': ' + ', '.join(wrong) if wrong else ''}", flush=True,
    )


def enough(talc, path, make, n, bases):
    """A size, this or a power of two times it, at which both commands take long enough, and ten times it is no larger
    than texts may be."""
    while 20 * put(path, make(n)) < MOST_TEXT:
        runs = least(commands_of(talc, path), times=2)
        if min(run[0] - base[0] for run, base in zip(runs, bases)) >= 1.5 * LEAST_SECONDS:
            break
        n *= 2
    return n


def main():
    talc, chosen = program(), sys.argv[1:]
    with folder() as place:
        paths = [f"{place}/small.tal", f"{place}/large.tal"]
        put(paths[0], HEAD + "jmp L0\n")
        bases = least(commands_of(talc, paths[0]))
        print(f"a text of one jump: {bases[0][0]:.4f} s, {bases[0][1] / 1e6:.1f} MB")
        for make, n, *more in TEXTS + LARGER:
            if not chosen or make.__name__ in chosen:
                n = enough(talc, paths[0], make, n, bases)
                report(talc, make, n, paths, bases, *more)


main()
