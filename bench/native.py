"""Native code: executable files of `talc native` compared with `talc run`, ocamlopt, ocamlrun, lua5.4 and cc -O2 on the
same programs, as ratios in one run.

A table has for each program the processor seconds of each and its peak of memory, and in brackets the time as a
multiple of that of native code. Each is the least of some rounds (5, or the number that is the first word), in which
all run in turn; of a short run it is the mean of as many as come to 0.05 seconds. What is not installed is left out, by
name. The other languages have the same algorithm, OCaml with the same tuples and functions; in C no call becomes a part
of another function, or a loop. Further words choose the programs in whose names they stand.

Then come a compiled loop of 100000000 turns alone; how long the start of a small file takes, beside `talc run` and a
program of the system; and `native` itself on texts of a megabyte, whose goal is at most twice the time of `check`. The
goals of the rows are in the list of programs: `run` takes at least so many times as long. A row that misses its goal
says so.
"""
import math
import os
import random
import re
import shutil
import subprocess
import sys
import time

from measure import LEAST_SECONDS, ROOT, Spent, best, checked, folder, least, program, ratio
from shapes import calls

ROUNDS = int(sys.argv[1]) if sys.argv[1:] else 5
FUEL = 4_000_000_000
HEAP = 1 << 32
STARTS = 300
MOST_OF_CHECK = 2
TURNS = 100_000_000

# What a function in C begins with that is not to become a loop, nor a part of another.
C = "#include <stdio.h>\n__attribute__((noinline, noclone)) "

FIB = "(fix f(n:int):int. if0(n, 0, if0(n - 1, 1, f(n - 1) + f(n - 2)))) 32"
FRAME = "<int^1, k^1, all[]{r1: int, r2: k}^1>"
FIB_BY_HAND = f"""tal 2
main: code[]{{}}. mov r1, 32 malloc r2[] mov r3, done jmp fib[<>]
fib: code[k]{{r1: int, r2: k, r3: all[]{{r1: int, r2: k}}}}. bnz r1, one[k] jmp r3
one: code[k]{{r1: int, r2: k, r3: all[]{{r1: int, r2: k}}}}. sub r4, r1, 1 bnz r4, more[k] jmp r3
more: code[k]{{r1: int, r2: k, r3: all[]{{r1: int, r2: k}}}}.
malloc r4[int, k, all[]{{r1: int, r2: k}}] st r4[0], r1 st r4[1], r2 st r4[2], r3
sub r1, r1, 1 mov r2, r4 mov r3, first[k] jmp fib[{FRAME}]
first: code[k]{{r1: int, r2: {FRAME}}}.
ld r5, r2[0] malloc r4[int, k, all[]{{r1: int, r2: k}}] st r4[0], r1 ld r6, r2[1] st r4[1], r6 ld r6, r2[2] st r4[2], r6
sub r1, r5, 2 mov r2, r4 mov r3, second[k] jmp fib[{FRAME}]
second: code[k]{{r1: int, r2: {FRAME}}}. ld r4, r2[0] add r1, r1, r4 ld r3, r2[2] ld r2, r2[1] jmp r3
done: code[]{{r1: int, r2: <>}}. halt[int]
"""
FIB_OF_OTHERS = {
    "ml": "let rec f n = if n = 0 then 0 else if n = 1 then 1 else f (n - 1) + f (n - 2)\n"
          "let () = Printf.printf \"int %d\\n\" (f 32)",
    "lua": "local function f(n) if n == 0 then return 0 end if n == 1 then return 1 end "
           "return f(n - 1) + f(n - 2) end\n"
           "print('int ' .. f(32))",
    "c": f"{C}long f(long n) {{ if (n == 0) return 0; if (n == 1) return 1; long a = f(n - 1); "
         "__asm__ volatile(\"\" : \"+r\"(a)); long b = f(n - 2); __asm__ volatile(\"\" : \"+r\"(b)); "
         "return a + b; }\n"
         "int main(void) { printf(\"int %ld\\n\", f(32)); }",
}

LOOP_BY_HAND = f"""tal 1
L0: code[]{{}}. mov r1, {TURNS} jmp L1
L1: code[]{{r1:int}}. sub r1, r1, 1 mov r2, 5 add r2, r2, 3 bnz r1, L1 halt[int]
"""
LOOP = f"(fix loop(n:int):int. if0(n, 0, loop (n - 1))) {TURNS}"

PAIRS_DROPPED = """tal 1
L0: code[]{}. mov r1, 10000000 jmp L1
L1: code[]{r1:int}. malloc r2[int, int] st r2[0], r1 st r2[1], r1 sub r1, r1, 1 bnz r1, L1 halt[int]
"""
PAIRS_KEPT = """tal 1
L0: code[]{}. mov r1, 10000000 malloc r2[] jmp L1[<>]
L1: code[a]{r1:int, r2:a}.
malloc r3[int, a] st r3[0], r1 st r3[1], r2 mov r2, r3 sub r1, r1, 1 bnz r1, L1[<int^1, a^1>] halt[int]
"""


def deep(times, calls_deep):
    """The texts of a function that calls itself so deep, so many times."""
    return {
        "f": f"let down = fix down(n:int):int. if0(n, 0, 1 + down (n - 1)) in "
             f"(fix rep(k:int):int. if0(k, 0, down {calls_deep} + rep (k - 1))) {times}",
        "ml": "let rec down n = if n = 0 then 0 else 1 + down (n - 1)\n"
              f"let rec rep k = if k = 0 then 0 else let r = down {calls_deep} in r + rep (k - 1)\n"
              f"let () = Printf.printf \"int %d\\n\" (rep {times})",
        "lua": "local function down(n) if n == 0 then return 0 end return 1 + down(n - 1) end\n"
               f"local r = 0 for k = 1, {times} do r = r + down({calls_deep}) end print('int ' .. r)",
        "c": f"{C}long down(long n) {{ if (n == 0) return 0; "
             "long r = down(n - 1); __asm__ volatile(\"\" : \"+r\"(r)); return 1 + r; }\n"
             f"int main(void) {{ long r = 0; for (int k = 0; k < {times}; k++) r += down({calls_deep}); "
             "printf(\"int %ld\\n\", r); }",
    }


QUEENS_OF_OTHERS = {
    "ml": """let size = 10
let attack ((r, c), (s, d)) = let rows = r - s in let columns = c - d in columns * (columns - rows) * (columns + rows)
let within (at, others) = fun field -> attack (field, at) * others field
let rec ways ((row, column) as field, free) =
  if size - row = 0 then 1 else if size - column = 0 then 0 else
  let here = if free field = 0 then 0 else ways ((row + 1, 0), within (field, free)) in
  here + ways ((row, column + 1), free)
let () = Printf.printf "int %d\\n" (ways ((0, 0), fun _ -> 1))""",
    "lua": """local size = 10
local function attack(p)
  local rows, columns = p[1][1] - p[2][1], p[1][2] - p[2][2]
  return columns * (columns - rows) * (columns + rows)
end
local function with(p) return function(field) return attack({field, p[1]}) * p[2](field) end end
local function ways(s)
  local field, free = s[1], s[2]
  local row, column = field[1], field[2]
  if size - row == 0 then return 1 end
  if size - column == 0 then return 0 end
  local here = 0
  if free(field) ~= 0 then here = ways({{row + 1, 0}, with({field, free})}) end
  return here + ways({{row, column + 1}, free})
end
print('int ' .. ways({{0, 0}, function(field) return 1 end}))""",
}

SORT_IN_ML = """type l = { fold : 'r. (int * 'r -> 'r) -> 'r -> 'r }
let empty = { fold = fun _ start -> start }
let put (x, l) = { fold = fun add start -> add (x, l.fold add start) }
let rec below (a, b) = if b = 0 then 0 else if a = 0 then 1 else below (a - 1, b - 1)
let join (a, b) = a.fold put b
let keep (test, l) = l.fold (fun (x, r) -> if test x = 0 then r else put (x, r)) empty
let split l =
  let n, x, rest, _ = l.fold (fun (x, (_, _, _, whole)) -> (1, x, whole, put (x, whole))) (0, 0, empty, empty) in
  (n, x, rest)
let rec sort l =
  let n, first, rest = split l in
  if n = 0 then empty else
  let less = keep ((fun n -> below (n, first)), rest) in
  let more = keep ((fun n -> 1 - below (n, first)), rest) in
  join (sort less, put (first, sort more))
let weighed l = fst (l.fold (fun (x, (sum, at)) -> (sum + x * at, at + 1)) (0, 1))
"""


def queens():
    """The example, on a board of ten rows."""
    text = (ROOT / "examples" / "queens.f").read_text(encoding="ascii")
    return {"f": text.replace("let size = 6", "let size = 10"), **QUEENS_OF_OTHERS}


def quicksort(count=1200, line=40):
    """The example, on so many numbers; what comes is the sum of each times its place."""
    text = (ROOT / "examples" / "quicksort.f").read_text(encoding="ascii")
    chance = random.Random(1)
    lines = [[chance.randrange(100) for _ in range(line)] for _ in range(count // line)]
    ours = text[:text.index("let digits")] + "let l0 = empty in\n"
    theirs = SORT_IN_ML + "let l0 = empty\n"
    for at, numbers in enumerate(lines):
        ours += f"let l{at + 1} = {' '.join(f'put <{it},' for it in numbers)} l{at}{'>' * line} in\n"
        theirs += f"let l{at + 1} = {' '.join(f'put ({it},' for it in numbers)} l{at}{')' * line}\n"
    ours += f"""let sums = fold[<int, int>] <sort l{len(lines)}, fix each(e:<int, <int, int>>):<int, int>.
  <#1 (#2 e) + #1 e * #2 (#2 e), #2 (#2 e) + 1>, <0, 1>> in #1 sums"""
    return {"f": ours, "ml": f"{theirs}let () = Printf.printf \"int %d\\n\" (weighed (sort l{len(lines)}))"}


def counted(turns, ml, lua, c=None):
    """Loops in the other languages, whose bodies count the number n down to 0."""
    found = {
        "ml": f"let () = let n = ref {turns} in {ml} Printf.printf \"int 0\\n\"",
        "lua": f"local n = {turns} {lua} print('int 0')",
    }
    if c:
        found["c"] = f"#include <stdio.h>\nint main(void) {{ long n = {turns}; {c} printf(\"int %ld\\n\", n); }}"
    return found


# A name, how many times as long `run` takes at least, and the texts by their endings.
PROGRAMS = [
    ("a loop of 10^8 turns by hand", 5, {"tal": LOOP_BY_HAND, **counted(
        TURNS, "let k = ref 0 in while decr n; k := 5; k := !k + 3; !n <> 0 do () done;",
        "repeat n = n - 1 local k = 5 k = k + 3 until n == 0",
        "long k; do { n--; k = 5; __asm__ volatile(\"\" : \"+r\"(n), \"=r\"(k)); k += 3; "
        "__asm__ volatile(\"\" :: \"r\"(k)); } while (n);")}),
    ("a compiled loop of 10^8 turns", 2, {
        "f": LOOP,
        "ml": "let rec loop n = if n = 0 then 0 else loop (n - 1)\n"
              f"let () = Printf.printf \"int %d\\n\" (loop {TURNS})",
        "lua": "local function loop(n) if n == 0 then return 0 end return loop(n - 1) end\n"
               f"print('int ' .. loop({TURNS}))",
        "c": f"{C}long loop(long n) {{ __asm__ volatile(\"\" : \"+r\"(n)); if (n == 0) return 0; "
             "return loop(n - 1); }\n"
             f"int main(void) {{ printf(\"int %ld\\n\", loop({TURNS})); }}"}),
    ("10^7 pairs, dropped at once", 1, {"tal": PAIRS_DROPPED, **counted(
        10**7, "let t = ref (0, 0) in while t := (!n, !n); decr n; !n <> 0 do () done; ignore !t;",
        "repeat local t = {n, n} n = n - 1 until n == 0")}),
    ("10^7 pairs, kept in a list", 0.4, {"tal": PAIRS_KEPT, **counted(
        10**7, "let l = ref [] in while l := !n :: !l; decr n; !n <> 0 do () done; ignore (List.hd !l);",
        "local l = {} repeat l = {n, l} n = n - 1 until n == 0")}),
    ("fib 32, compiled", 2, {"f": FIB, **FIB_OF_OTHERS}),
    ("fib 32 by hand, with known functions", 3, {"tal": FIB_BY_HAND, **FIB_OF_OTHERS}),
    ("30 times 10^5 calls deep, compiled", 1, deep(30, 10**5)),
    ("10^7 calls deep, compiled", 0.3, {"f": deep(1, 10**7)["f"]}),
    ("10 queens, compiled", 2.5, queens()),
    ("quicksort of 1200 numbers, compiled", 3, quicksort()),
]

# The peers: a name, the ending of its text, the commands that make something of it, and the one that runs it.
PEERS = [
    ("ocamlopt", "ml", [["ocamlopt", "-o", "p.opt", "p.ml"]], ["p.opt"]),
    ("ocamlrun", "ml", [["ocamlc", "-o", "p.byte", "p.ml"]], ["ocamlrun", "p.byte"]),
    ("lua5.4", "lua", [], ["lua5.4", "p.lua"]),
    ("cc -O2", "c", [["cc", "-O2", "-o", "p.c.out", "p.c"]], ["p.c.out"]),
]


def written(path, text):
    with open(path, "w", encoding="ascii") as file:
        file.write(text)
    return path


def in_place(place, words):
    return [f"{place}/{it}" if it.startswith("p.") else shutil.which(it) or it for it in words]


def has(makes, runs):
    return all(it[0].startswith("p.") or shutil.which(it[0]) for it in [*makes, runs])


def made(talc, place, text):
    """The assembly text of a program, and its executable file."""
    if "f" in text:
        checked([talc, "compile", written(f"{place}/p.f", text["f"]), f"{place}/p.tal"], (0, ""))
    else:
        written(f"{place}/p.tal", text["tal"])
    checked([talc, "native", "--heap", str(HEAP), f"{place}/p.tal", f"{place}/p.out"], (0, ""))
    os.chmod(f"{place}/p.out", 0o755)
    return f"{place}/p.tal", f"{place}/p.out"


class Mean:
    """Runs of a command one behind the other: the mean of their seconds, and the peak."""

    def __init__(self, words, wanted, times):
        runs = [checked(words, wanted) for _ in range(times)]
        self.seconds, self.peak = sum(it.seconds for it in runs) / times, max(it.peak for it in runs)


def in_turn(commands, wanted):
    """The least of some rounds of each command; a short one runs several times in each."""
    first = [checked(words, wanted) for words in commands]
    times = [min(20, math.ceil(LEAST_SECONDS / max(it.seconds, 1e-4))) for it in first]
    rounds = [[Mean(words, wanted, n) for words, n in zip(commands, times)] for _ in range(ROUNDS)]
    return [least(runs) for runs in zip(*rounds)]


def row(talc, place, name, goal, text):
    """The row of a program."""
    assembly, output = made(talc, place, text)
    commands = {"native": [output], "talc run": [talc, "run", assembly, "--fuel", str(FUEL)]}
    for peer, ending, makes, runs in PEERS:
        if ending in text and has(makes, runs):
            written(f"{place}/p.{ending}", text[ending])
            for words in makes:
                subprocess.run(in_place(place, words), check=True)
            commands[peer] = in_place(place, runs)
    wanted = (0, checked([talc, "run", assembly, "--fuel", str(FUEL)]).text)
    runs = dict(zip(commands, in_turn(commands.values(), wanted)))
    ours = runs["native"]

    def cell(it):
        if it not in runs:
            return "-"
        times = "" if it == "native" else f" ({runs[it].seconds / ours.seconds:.2f})"
        return f"{runs[it].seconds:.3f} s, {runs[it].peak / 1e6:.1f} MB{times}"

    slow = ": slow" if runs["talc run"].seconds < goal * ours.seconds else ""
    cells = [cell(it) for it in ("native", "talc run", *(it[0] for it in PEERS))]
    print(f"| {name}{slow} | {' | '.join(cells)} |", flush=True)


def alone(talc, place):
    """The compiled loop by itself, by the clock too."""
    _, output = made(talc, place, {"f": LOOP})
    began = time.perf_counter()
    run = checked([output], (0, "int 0\n"))
    print(f"\na compiled loop of {TURNS} turns alone: {run.seconds:.2f} s of the processor, "
          f"{time.perf_counter() - began:.2f} s by the clock, {run.peak / 1e6:.1f} MB")


def started(words):
    """The microseconds by the clock from a start of a process to its end, the least of many."""
    nothing = [(os.POSIX_SPAWN_OPEN, 1, "/dev/null", os.O_WRONLY, 0)]
    took = []
    for _ in range(STARTS):
        began = time.perf_counter()
        os.waitpid(os.posix_spawn(words[0], words, os.environ, file_actions=nothing), 0)
        took.append(time.perf_counter() - began)
    return 1e6 * min(took)


def starts(talc, place):
    assembly, output = made(talc, place, {"f": "7"})
    commands = {"native": [output], "`talc run`": [talc, "run", assembly, "--fuel", "9"], "/bin/true": ["/bin/true"]}
    shown = ", ".join(f"{name} {started(words):.0f} us" for name, words in commands.items())
    print(f"from the start to the end of the program `7`: {shown}; the file has {os.path.getsize(output)} bytes")


def blocks(count):
    """So many blocks of a hundred instructions that load, store and jump."""
    body = ["ld r3, r2[0]", "add r1, r1, r3", "mul r4, r1, 7", "st r2[0], r4", "bnz r4, L1"] * 20
    text = "tal 1\nL0: code[]{}.\nmalloc r2[int]\nmov r1, 1\nst r2[0], r1\njmp L1\n"
    for it in range(1, count):
        text += f"L{it}: code[]{{r1:int, r2:<int^1>}}.\n" + "\n".join(body) + f"\njmp L{it % (count - 1) + 1}\n"
    return text


def beside_check(talc, place):
    """The time of `native` on texts of a megabyte, beside that of `check`."""
    output, empty = f"{place}/p.out", written(f"{place}/7.tal", "tal 1\nL0: code[]{}. mov r1, 7 halt[int]\n")
    written(f"{place}/p.f", calls(2100))
    checked([talc, "compile", f"{place}/p.f", f"{place}/compiled.tal"], (0, ""))
    texts = {"by hand": written(f"{place}/blocks.tal", blocks(850)), "compiled": f"{place}/compiled.tal"}
    for name, path in texts.items():
        base = best([talc, "native", empty, output], times=20)
        native = Spent([talc, "native", path, output], base, times=ROUNDS)
        check = Spent([talc, "check", path], best([talc, "check", empty], times=20), times=ROUNDS)
        print(f"`native` on a text {name} of {os.path.getsize(path)} bytes: {native.seconds:.3f} s, "
              f"{native.run.peak / 1e6:.1f} MB, a file of {os.path.getsize(output)} bytes; times `check`: "
              f"{ratio(native, check, MOST_OF_CHECK)}")


def main():
    talc = program()
    told = subprocess.run([talc, "--help"], capture_output=True, text=True, check=False).stderr
    if not re.search(r"^  native ", told, re.M):
        sys.exit(f"{talc} has no command `native`")
    for peer, _, makes, runs in PEERS:
        if not has(makes, runs):
            print(f"{peer} is not installed, so its column is empty")
    print(f"{os.cpu_count()} processors; {os.getloadavg()[0]:.1f} processes at work before it began; "
          f"the least of {ROUNDS} rounds\n")
    print(f"| Program | native | `talc run` | {' | '.join(it[0] for it in PEERS)} |\n|{'---|' * (3 + len(PEERS))}")
    with folder() as place:
        for it in PROGRAMS:
            if not sys.argv[2:] or any(word in it[0] for word in sys.argv[2:]):
                row(talc, place, *it)
        alone(talc, place)
        starts(talc, place)
        beside_check(talc, place)


main()
