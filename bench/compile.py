"""Compiling: `talc compile` on sources of two kinds. Eight shapes have up to 100000 nodes, the limit, and a text that
grows with the source. Two shapes have up to about 1000 nodes, and a text that grows faster. Three of the first eight
are also compiled with `compile --registers 8`, on up to 20000 nodes, with nine names in use around them, which eight
registers do not hold.

For each size it shows:

- processor seconds less those of the text `7`;
- bytes of the text for a node of the source;
- peak memory for a byte of the text (goal: at most 100);
- the time as a multiple of that of half the size (goal: at most 2.2). In the last two shapes each closure has a copy of
  what it keeps, so there the time for a byte of the text is compared with that of half the size (goal: at most 1.1).

A text is compiled as often as it takes to come to 0.05 seconds. A row that misses its goal says so. Where ocamlopt is
installed, its time for a program of the same meaning and of some 1000 nodes is shown too, each less that of the
smallest program.

Then come small programs: the instructions that they execute, those for a turn of their source and those in their text,
how many of these are moves, and the greatest register. The same is shown with `--registers 8` and `--registers 16`,
with bytes, instructions executed and time as multiples of those without (goals for instructions: at most 5 and 3). Last
comes the text of each example and of all together: how many of 100 instructions are moves (goal for all: at most 25),
and the greatest register (goal: at most 16). `passes.py` measures what larger terms take.
"""
import re
import shutil
import sys
from pathlib import Path
from measure import ROOT, Run, Spent, best, examples, folder, program, ratio, says_something
from shapes import branches, calls, cells, functions, lets, ones, opens, packs


def written_out(n):
    """Nested calls of functions that are written out: each function is named before the first call."""
    text = "0"
    for _ in range(n // 7):
        text = f"(fix f(x:int):int. x + 1 + 1) ({text})"
    return text


def closures(n):
    """Functions that return functions, each of which keeps the arguments of all those around it."""
    depth = n // 6
    names = [f"x{i}" for i in range(depth)]
    kinds = ["int"] * (depth + 1)
    text = " + ".join(names)
    for i in reversed(range(depth)):
        result = " -> ".join(kinds[i + 1:])
        text = f"fix f{i}({names[i]}:int):{result}. {text}"
    return f"({text})" + "".join(f" {i}" for i in range(depth))


def ones_in_ocaml(n):
    return ones(n)


def calls_in_ocaml(n):
    nest = "f (" * 39 + "f 0" + ")" * 39
    return f"(let rec g f = {' + '.join([nest] * max(1, n // 82))} in g) (let rec h x = x + 1 in h)"


def functions_in_ocaml(n):
    return " + ".join(["(let rec f x = x in f) 1"] * ((n + 1) // 5))


def lets_in_ocaml(n):
    return lets(n)


def cells_in_ocaml(n):
    return cells(n)


def written_out_in_ocaml(n):
    text = "0"
    for _ in range(n // 7):
        text = f"(let rec f x = x + 1 + 1 in f) ({text})"
    return text


def branches_in_ocaml(n):
    return " + ".join(["(if 0 = 0 then 1 else 2)"] * ((n + 1) // 5))


def closures_in_ocaml(n):
    depth = n // 6
    names = [f"x{i}" for i in range(depth)]
    text = "".join(f"fun {name} -> " for name in names) + " + ".join(names)
    return f"({text})" + "".join(f" {i}" for i in range(depth))


def among_nine(shape):
    """A shape with nine names around it that are in use up to its end, of 54 nodes."""
    names = [f"a{i}" for i in range(1, 10)]
    around = "".join(f"let {name} = #1 <1> in " for name in names)
    return lambda n: f"{around}{shape(n - 54)} + {' + '.join(names)}"


LINEAR = [
    ("a sum", ones, ones_in_ocaml),
    ("nested calls of one function", calls, calls_in_ocaml),
    ("choices in a row", branches, branches_in_ocaml),
    ("functions in a row", functions, functions_in_ocaml),
    ("lets in a row", lets, lets_in_ocaml),
    ("packages, each in the next", packs, None),
    ("packages opened in a row", opens, None),
    ("assignments in a row", cells, cells_in_ocaml),
]
FASTER = [
    ("nested calls of functions that are written out", written_out, written_out_in_ocaml),
    ("functions that keep much", closures, closures_in_ocaml),
]
WITHIN = [
    ("a sum", among_nine(ones)), ("functions in a row", among_nine(functions)),
    ("assignments in a row", among_nine(cells)),
]
SIZES, WITHIN_SIZES, SMALL_SIZES = [25000, 50000, 99998], [5000, 10000, 20000], [250, 500, 998]
MOST_TIMES, MOST_BYTES, MOST_OF_OCAML = 2.2, 100, 1
MOST_MOVES, MOST_REGISTER = 25, 16
# Within so many registers, a program executes at most so many times the instructions.
WITHIN_TIMES = [(8, 5), (16, 3)]


def example(name):
    return Path(ROOT, "examples", name).read_text(encoding="ascii")


# The names of thirty computed values, all in use at once.
NAMES = [f"x{i}" for i in range(1, 31)]
THIRTY = "".join(f"let {name} = #1 <{i}> in " for i, name in enumerate(NAMES, 1))
THIRTY += f"(fix f(y:int):int. {' + '.join(NAMES)} + y) 0"

# Each with its turns, and the instructions wanted at most.
TURNS = [
    ("factorial of 5", example("factorial.f"), 6, 180),
    ("tenth Fibonacci number", example("fibonacci.f"), 177, 6200),
    ("polymorphic identity", example("identity.f"), 2, None),
    ("a package with two implementations", example("counter.f"), 14, None),
    ("a stack as a package", example("stack.f"), 25, None),
    ("fractions", example("fractions.f"), 561, None),
    ("recursion through a reference", example("knot.f"), 6, None),
    ("thirty names", THIRTY, 1, None),
]


def instructions(talc, target):
    """The number of instructions that the program executes, by halving."""
    low, high = 0, 1 << 24
    while low < high:
        middle = (low + high) // 2
        if Run([talc, "run", target, "--fuel", str(middle)]).status == 0:
            high = middle
        else:
            low = middle + 1
    run = Run([talc, "run", target, "--fuel", str(low)])
    if run.status != 0:
        sys.exit(f"{target}: status {run.status} after {low} instructions")
    return low


class Text:
    """An assembly text: its bytes, its instructions and ends, the moves among them, and its greatest register."""

    def __init__(self, name):
        text = Path(name).read_text(encoding="ascii")
        lines = [line for line in text.splitlines()[1:] if ": code[" not in line and ": data <" not in line]
        self.bytes, self.instructions = len(text), len(lines)
        self.moves = sum(line.startswith("mov ") for line in lines)
        self.register = max((int(number) for number in re.findall(r"\br(\d+)\b", text)), default=0)


def main():
    talc = program()
    with folder() as place:
        source, target = f"{place}/text.f", f"{place}/text.tal"

        def written(text, *option):
            with open(source, "w", encoding="ascii") as file:
                file.write(text)
            return [talc, "compile", *option, source, target]

        base = best(written("7"), times=20, wanted=(0, ""))

        def timed(text, *option):
            spent = Spent(written(text, *option), base, wanted=(0, ""))
            with open(target, "rb") as file:
                return spent, len(file.read())

        def in_ocaml_of(text):
            with open(f"{place}/text.ml", "w", encoding="ascii") as file:
                file.write(f"let () = print_int ({text})\n")
            return ["ocamlopt", "-c", f"{place}/text.ml"]

        print(f"the text 7: {base.seconds:.4f} s, {base.peak / 1e6:.1f} MB")
        peer = best(in_ocaml_of("7"), times=5) if shutil.which("ocamlopt") else None
        if peer:
            print(f"the text 7 by ocamlopt: {peer.seconds:.3f} s")

        def rows(name, shape, sizes, is_linear, *option):
            """Prints a row for each size."""
            last = None
            for size in sizes:
                spent, length = timed(shape(size), *option)
                memory = spent.bytes / length
                measured, wanted = ("time", MOST_TIMES) if is_linear else ("time a byte", MOST_TIMES / 2)
                print(
                    f"{name}, {size} nodes: {spent.seconds:.4f} s, {length} bytes, {length / size:.1f} a node, "
                    f"{spent.seconds / length * 1e9:.0f} ns a byte, {memory:.1f} bytes of memory a byte "
                    f"(wanted: at most {MOST_BYTES}){': large' if memory > MOST_BYTES else ''}"
                    + (f", {measured} as a multiple of the half "
                       f"{ratio(spent, last[0], wanted, 1 if is_linear else length / last[1])}" if last else "")
                )
                last = spent, length

        def beside_peer(name, shape, in_ocaml):
            size = SMALL_SIZES[-1]
            ours, theirs = timed(shape(size))[0], Spent(in_ocaml_of(in_ocaml(size)), peer)
            print(
                f"{name}, {size} nodes by ocamlopt: {theirs.seconds:.3f} s; times its time: "
                f"{ratio(ours, theirs, MOST_OF_OCAML)}"
            )

        def counted(name, text, turns, most):
            """Prints a row without the option, and one for each bound on registers."""
            spent, _ = timed(text)
            plain, made = Text(target), instructions(talc, target)
            wanted = "" if most is None else f", wanted at most {most}{': many' if made > most else ''}"
            print(
                f"{name}: {made} instructions for {turns} turns, {made / turns:.1f} a turn{wanted}; in the text "
                f"{plain.instructions}, of which {plain.moves} moves, up to r{plain.register}, {plain.bytes} bytes"
            )
            for bound, most_times in WITHIN_TIMES:
                within, _ = timed(text, "--registers", str(bound))
                small, more = Text(target), instructions(talc, target)
                wrong = f": r{small.register} is above the bound" if small.register > bound else ""
                times = f"{within.seconds / spent.seconds:.1f}" if says_something(within, spent) else "too short to say"
                print(
                    f"{name} within {bound} registers: {more} instructions, {more / made:.1f} times, wanted at most "
                    f"{most_times}{': many' if more > most_times * made else ''}; in the text "
                    f"{small.instructions}, up to r{small.register}, {small.bytes} bytes, "
                    f"{small.bytes / plain.bytes:.1f} times; "
                    f"times the time to compile: {times}{wrong}"
                )

        def moved():
            """Prints a row for each example, and one for all."""
            instructions = moves = 0
            for path in examples():
                timed(path.read_text(encoding="ascii"))
                text = Text(target)
                instructions += text.instructions
                moves += text.moves
                wrong = ": many registers" if text.register > MOST_REGISTER else ""
                print(
                    f"{path.name}: {text.moves} of {text.instructions} instructions are moves, "
                    f"{100 * text.moves / text.instructions:.0f} of 100, up to r{text.register}{wrong}"
                )
            share = 100 * moves / instructions
            print(
                f"all examples: {moves} of {instructions} instructions are moves, {share:.1f} of 100, wanted at most "
                f"{MOST_MOVES}{': many' if share > MOST_MOVES else ''}"
            )

        for name, shape, in_ocaml, is_linear in [(*row, True) for row in LINEAR] + [(*row, False) for row in FASTER]:
            rows(name, shape, SIZES if is_linear else SMALL_SIZES, is_linear)
            if peer and in_ocaml:
                beside_peer(name, shape, in_ocaml)
        for name, shape in WITHIN:
            rows(f"{name} within 8 registers", shape, WITHIN_SIZES, True, "--registers", "8")
        for row in TURNS:
            counted(*row)
        moved()


main()
