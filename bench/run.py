"""The machine: `talc run` compared with wabt's wasm-interp, lua5.4 and ocamlrun on the same programs, as ratios in one
run; and a compiled loop.

One program makes 100000000 steps in a loop, one allocates 10000000 pairs and drops them at once, one keeps 10000000 in
a list. The goals: at most a twentieth of wasm-interp's time in the first, and a tenth in the second; and less time than
Lua and OCaml's bytecode in all three. The compiled loop makes 100000000 turns, each of which allocates two tuples and
drops them. It should hold less than 64 MB. `talc cost`, which counts, should take at most 1.3 times as long as
`talc run` on the first two. A row that misses its goal says so. What is not installed is left out.
"""
import shutil
import subprocess

from measure import best, best_in_turn, folder, program, ratio

MOST_BYTES = 64_000_000
MOST_OF_COUNT = 1.3
TURNS = 100_000_000
COMPILED = f"(fix loop(n:int):int. if0(n, 7, loop (n - 1))) {TURNS}"
# How many times the other's time ours may take.
AHEAD = 1

# A name, how many steps ours makes, and by the ending of a file the text and what is wanted. Each makes the same work a
# turn, as far as its language has it: wasm has more instructions for it, and for tuples a bump allocator over a memory
# that holds all of them.
PROGRAMS = [
    (
        "a loop of 100000000 steps", 100000002, {"wat": 0.05},
        {
            "tal": """tal 1
L0: code[]{}.
mov r1, 25000000
jmp L1
L1: code[]{r1:int}.
sub r1, r1, 1
mov r2, 5
add r2, r2, 3
bnz r1, L1
halt[int]
""",
            "wat": """(module (func (export "loop") (result i64) (local i64 i64)
i64.const 25000000 local.set 0
(loop
local.get 0 i64.const 1 i64.sub local.set 0
i64.const 5 local.set 1
local.get 1 i64.const 3 i64.add local.set 1
local.get 0 i64.const 0 i64.ne br_if 0)
local.get 0))
""",
            "lua": "local n = 25000000 repeat n = n - 1 local k = 5 k = k + 3 until n == 0 print(n)",
            "ml": "let () = let n = ref 25000000 and k = ref 0 in\n"
                  "while decr n; k := 5; k := !k + 3; !n <> 0 do () done; print_int !n",
        },
    ),
    (
        "10000000 pairs, dropped at once", 50000002, {"wat": 0.1},
        {
            "tal": """tal 1
L0: code[]{}.
mov r1, 10000000
jmp L1
L1: code[]{r1:int}.
malloc r2[int, int]
st r2[0], r1
st r2[1], r1
sub r1, r1, 1
bnz r1, L1
halt[int]
""",
            "wat": """(module (memory 2500) (func (export "tuples") (result i64) (local i64 i32)
i64.const 10000000 local.set 0
(loop
local.get 1 local.get 0 i64.store
local.get 1 local.get 0 i64.store offset=8
local.get 1 i32.const 16 i32.add local.set 1
local.get 0 i64.const 1 i64.sub local.set 0
local.get 0 i64.const 0 i64.ne br_if 0)
local.get 0))
""",
            "lua": "local n = 10000000 repeat local t = {n, n} n = n - 1 until n == 0 print(n)",
            "ml": "let () = let n = ref 10000000 and t = ref (0, 0) in\n"
                  "while t := (!n, !n); decr n; !n <> 0 do () done; print_int !n",
        },
    ),
    (
        "10000000 pairs, kept in a list", 60000002, {},
        {
            "tal": """tal 1
L0: code[]{}.
mov r1, 10000000
malloc r2[]
jmp L1[<>]
L1: code[a]{r1:int, r2:a}.
malloc r3[int, a]
st r3[0], r1
st r3[1], r2
mov r2, r3
sub r1, r1, 1
bnz r1, L1[<int^1, a^1>]
halt[int]
""",
            "lua": "local n, l = 10000000, {} repeat l = {n, l} n = n - 1 until n == 0 print(n)",
            "ml": "let () = let n = ref 10000000 and l = ref [] in\n"
                  "while l := !n :: !l; decr n; !n <> 0 do () done; print_int !n",
        },
    ),
]

# By the ending: the name, the commands that make something of a text, and the one that runs it; and what it prints.
OTHERS = {
    "wat": ("wasm-interp", [["wat2wasm", "p.wat", "-o", "p.wasm"]],
            ["wasm-interp", "p.wasm", "--run-all-exports"], None),
    "lua": ("Lua", [], ["lua5.4", "p.lua"], "0\n"),
    "ml": ("ocamlrun", [["ocamlc", "-o", "p.byte", "p.ml"]], ["ocamlrun", "p.byte"], "0"),
}


def written(place, name, text):
    with open(f"{place}/{name}", "w", encoding="ascii") as file:
        file.write(text)


def in_place(place, words):
    """The words of a command, with the files in the folder."""
    return [shutil.which(words[0]), *(f"{place}/{it}" if it.startswith("p.") else it for it in words[1:])]


def commands(place, texts):
    """What runs the texts of the other languages whose tools are there, by their endings."""
    found = {}
    for ending, (_, makes, runs, out) in OTHERS.items():
        if ending in texts and all(shutil.which(it[0]) for it in [*makes, runs]):
            written(place, f"p.{ending}", texts[ending])
            for words in makes:
                subprocess.run(in_place(place, words), check=True)
            found[ending] = (in_place(place, runs), (0, out))
    return found


def run_beside(talc, place, name, steps, most, texts):
    """One program, beside those that there are in other languages."""
    written(place, "p.tal", texts["tal"])
    others = commands(place, texts)
    words = [talc, "run", f"{place}/p.tal", "--fuel", "1000000000"]
    ours, *theirs = best_in_turn((words, (0, "int 0\n")), *others.values())
    print(f"{name}: {ours.seconds:.2f} s, {steps / ours.seconds:.2e} instructions a second, {ours.peak / 1e6:.0f} MB")
    for ending, run in zip(others, theirs):
        print(f"  times {OTHERS[ending][0]}'s time, {run.seconds:.2f} s and {run.peak / 1e6:.0f} MB: "
              f"{ratio(ours, run, most.get(ending, AHEAD))}")


def run_compiled(talc, place):
    """The compiled loop: its time and its peak."""
    written(place, "p.f", COMPILED)
    best([talc, "compile", f"{place}/p.f", f"{place}/p.tal"], times=1)
    ours = best([talc, "run", f"{place}/p.tal", "--fuel", str(100 * TURNS)], times=1, wanted=(0, "int 7\n"))
    print(
        f"a compiled loop of {TURNS} turns: {ours.seconds:.2f} s, {TURNS / ours.seconds:.2e} turns a second, "
        f"{ours.peak / 1e6:.0f} MB (wanted: less than {MOST_BYTES // 1_000_000})"
        f"{': large' if ours.peak >= MOST_BYTES else ''}"
    )


def run_counted(talc, place, name, text):
    """What it takes to count, beside a run that does not."""
    with open(f"{place}/p.tal", "w") as file:
        file.write(text)
    counted, plain = best_in_turn(
        ([talc, "cost", f"{place}/p.tal", "--fuel", "1000000000"], None),
        ([talc, "run", f"{place}/p.tal", "--fuel", "1000000000"], (0, "int 0\n")),
    )
    print(f"{name}, counted: {counted.seconds:.2f} s, times that of `run`: {ratio(counted, plain, MOST_OF_COUNT)}")


def main():
    talc = program()
    for name, makes, runs, _ in OTHERS.values():
        for it in sorted({words[0] for words in [*makes, runs] if not shutil.which(words[0])}):
            print(f"{it} is not installed, so nothing is beside {name}")
    with folder() as place:
        for row in PROGRAMS:
            run_beside(talc, place, *row)
        for name, _, _, texts in PROGRAMS[:2]:
            run_counted(talc, place, name, texts["tal"])
        run_compiled(talc, place)


main()
