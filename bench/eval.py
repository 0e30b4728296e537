"""Evaluation: `talc eval` compared with lua5.4 on the same three programs, as ratios in one run.

The first program calls 100000 deep, twenty times, which is as deep as Lua goes. The second makes 10000000 turns in a
loop. The third is the 32nd Fibonacci number, with two calls in each. For each it shows turns a second, the memory for
each turn beyond that of the text `7`, and the time as a multiple of Lua's (goal: at most 1). A row that misses its goal
says so.
"""
from measure import Spent, available, best, folder, program, ratio

MOST_TIMES = 1
DEEP = " + ".join(["f(100000)"] * 20)

CASES = [
    (
        "20 times 100000 calls deep",
        f"let f = fix f(n:int):int. if0(n, 0, 1 + f(n - 1)) in {DEEP}",
        2000020,
        "int 2000000 after 2000020 turns\n",
        f"local function f(n) if n == 0 then return 0 else return 1 + f(n - 1) end end print({DEEP})",
    ),
    (
        "a loop of 10000000 turns",
        "(fix f(n:int):int. if0(n, 0, f(n - 1))) 9999999",
        10000000,
        "int 0 after 10000000 turns\n",
        "local function f(n) if n == 0 then return 0 else return f(n - 1) end end print(f(9999999))",
    ),
    (
        "the 32nd Fibonacci number",
        "(fix f(n:int):int. if0(n, 0, if0(n - 1, 1, f(n - 1) + f(n - 2)))) 32",
        7049155,
        "int 2178309 after 7049155 turns\n",
        "local function f(n) if n == 0 then return 0 elseif n - 1 == 0 then return 1 "
        "else return f(n - 1) + f(n - 2) end end print(f(32))",
    ),
]


def main():
    talc, lua = program(), available("lua5.4")
    with folder() as place:
        def written(name, text):
            with open(f"{place}/{name}", "w") as file:
                file.write(text)
            return f"{place}/{name}"

        seven = written("seven.f", "7")
        base = best([talc, "eval", seven, "--turns", "0"])
        bare = best([lua, written("bare.lua", "")])
        for name, source, turns, wanted, script in CASES:
            text = written("text.f", source)
            ours = Spent([talc, "eval", text, "--turns", str(turns)], base, wanted=(0, wanted))
            theirs = Spent([lua, written("text.lua", script)], bare)
            print(
                f"{name}: {turns / max(ours.seconds, 1e-3):.2e} turns a second, {ours.bytes / turns:.1f} bytes a turn, "
                f"times Lua's time: {ratio(ours, theirs, MOST_TIMES)}"
            )


main()
