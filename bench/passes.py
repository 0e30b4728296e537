"""The passes of the compiler one by one, by the forms that `talc show` makes: each form is the last one and one pass
more.

For each shape of source and each form it shows:

- processor seconds of all up to the form, its writing too, at a size and at twice the size;
- what it takes beyond the form before it;
- peak memory at both sizes, and the ratio of the times (goal: at most 2.2), where both are 0.05 seconds or more.

A row that misses its goal says so. Memory does not depend on what else the machine does, so its ratio is as good a
measure. The largest sources have some 100000 nodes, the most that a text may have.

After the last form of a shape it shows how many instructions the assembly text has for a declaration of the allocated
program, at both sizes. The ends of blocks are not counted.

With a number as its one word it takes sources of that many nodes in place of 99000, for a first look.
"""
import re
import sys
from measure import best, checked, folder, program, ratio
from shapes import branches, calls, functions, ones

FORMS = ["cps", "closed", "hoisted", "allocated", "assembly"]
MOST_TIMES, NODES = 2.2, 99_000
# A type has at most so many parts.
MOST_FIELDS = 9_000


def kept(n):
    """One continuation that keeps many variables."""
    names = [f"x{i}" for i in range((n - 5) // 6)]
    return "".join(f"let {name} = #1 <1> in " for name in names) + " + ".join(["(fix f(x:int):int. x) 1", *names])


def one_tuple(n):
    return f"#1 <{', '.join(['1'] * min(n, MOST_FIELDS * n // NODES))}>"


SHAPES = [
    ("a sum", ones),
    ("nested calls of one function", calls),
    ("one continuation that keeps many variables", kept),
    ("one tuple", one_tuple),
    ("choices in a row", branches),
    ("functions in a row, each called where it stands", functions),
]


def of_code(talc, source, target):
    """How many instructions the text of a source has for a declaration of its allocated program."""
    allocated = checked([talc, "show", source, "--form", "allocated"]).text
    checked([talc, "compile", source, target])
    with open(target, encoding="ascii") as file:
        lines = file.read().splitlines()
    declarations = len(re.findall(r"^ +let ", allocated, re.MULTILINE))
    instructions = sum(bool(re.match(r"(?!tal |jmp |halt\[)[a-z]", line)) for line in lines)
    return f"{instructions / declarations:.3f} ({instructions} for {declarations})" if declarations else "no declaration"


def main(nodes):
    talc, missed = program(), 0
    with folder() as place:
        def written(name, text):
            with open(f"{place}/{name}", "w", encoding="ascii") as file:
                file.write(text)
            return f"{place}/{name}"

        for title, shape in SHAPES:
            sources = [written("half.f", shape(nodes // 2)), written("whole.f", shape(nodes))]
            before = [0, 0]
            print(f"{title}, of {nodes // 2} and {nodes} nodes:")
            for form in [None, *FORMS]:
                words = ["show", "--form", form] if form else ["typeof"]
                small, large = [best([talc, *words, source], times=5) for source in sources]
                times = ratio(large, small, MOST_TIMES)
                missed += times.endswith("slow")
                print(
                    f"  {f'up to {form}' if form else 'typed'}: {small.seconds:.3f} s and {large.seconds:.3f} s; more "
                    f"than before {small.seconds - before[0]:.3f} s and {large.seconds - before[1]:.3f} s; "
                    f"{small.peak / 1e6:.0f} MB and {large.peak / 1e6:.0f} MB, {large.peak / small.peak:.2f} times; "
                    f"times the half: {times}"
                )
                before = [small.seconds, large.seconds]
            codes = " and ".join(of_code(talc, source, f"{place}/made.tal") for source in sources)
            print(f"  instructions a declaration: {codes}")
    print(f"rows that miss {MOST_TIMES} times: {missed}")


main(int(sys.argv[1]) if len(sys.argv) > 1 else NODES)
