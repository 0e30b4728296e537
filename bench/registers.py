"""The bound on registers: `talc compile --registers K`, with 8 and with 16, compared with `talc compile`, as ratios.

For each example that is a program and for thirty `let`s it shows instructions made, bytes of the text, and instructions
executed up to the end, without the option and as multiples of that with it (goals for instructions executed: at most 5
times with 8 registers, and 3 times with 16). A row says where the text is the same with the option. A text with a
register above the bound ends the script.

Then comes the compiler's time, less that for the text `7`, on straight lines of sums, each twice as long as the one
before it. Nine names are in use from the first to the last, so that the option makes a frame for each sum. It shows the
time as a multiple of that of half the length (goal: at most 2.2).

The last rows are calls in a row, each with the values of all before it still in use, twice as many as in the row before.
Their text is of the square of their number. Each row shows the bytes of the text within 8 registers and the compiler's
time, both as multiples of those of half as many calls (goal: at most 4; a cube would be 8). A row that misses its goal
says so.
"""
import re
import sys
from measure import Run, Spent, best, examples, folder, program, ratio

BOUNDS = [8, 16]
MOST_STEPS, MOST_TIMES, MOST_GROWTH = {8: 5, 16: 3}, 2.2, 4
FUEL = 1 << 24
LINES = [2500, 5000, 10000, 20000]
CALLS = [40, 80, 160, 320]
NAMES = [f"a{i}" for i in range(1, 10)]
NINE = "".join(f"let {name} = #1 <1> in " for name in NAMES)


def lets(value):
    """Thirty names that are all alive in the function that adds them up."""
    names = "".join(f"let x{i} = {value(i)} in " for i in range(1, 31))
    return f"{names}(fix f(y:int):int. {' + '.join(f'x{i}' for i in range(1, 31))} + y) 0"


def sources():
    """The examples that are programs, by name, and the rows of thirty `let`s."""
    for path in examples():
        yield path.name, path.read_text(encoding="ascii")
    yield "30 lets of numbers", lets(str)
    yield "30 lets of computed values", lets(lambda i: f"#1 <{i}>")


def executed(talc, target):
    """How many instructions a program executes, by halving; None where it has not ended within the fuel."""
    if Run([talc, "run", target, "--fuel", str(FUEL)]).status != 0:
        return None
    low, high = 0, FUEL
    while low < high:
        middle = (low + high) // 2
        if Run([talc, "run", target, "--fuel", str(middle)]).status == 0:
            high = middle
        else:
            low = middle + 1
    return low


class Made:
    """What the compiler made of a source: its text, its size, and its steps."""

    def __init__(self, words, target, bound):
        best(words, times=1, wanted=(0, ""))
        with open(target, encoding="ascii") as file:
            self.text = file.read()
        self.bytes = len(self.text)
        self.instructions = sum(1 for line in self.text.splitlines() if re.match(r"[a-z]", line)) - 1
        top = max((int(r) for r in re.findall(r"\br([0-9]+)\b", self.text)), default=0)
        if bound is not None and top > bound:
            sys.exit(f"{' '.join(words)}: register {top}")

    def walked(self, talc, target):
        self.steps = executed(talc, target)
        return self


def calls(number):
    """So many calls, whose values are all added up at the end."""
    names = "".join(f"let x{i} = f {i} in " for i in range(1, number + 1))
    return f"let f = fix f(n:int):int. n + 1 in {names}{' + '.join(f'x{i}' for i in range(1, number + 1))}"


def times(part, whole):
    return f"{part / whole:.1f}" if whole else "-"


def grown(last, framed, spent):
    """The bytes and the time as multiples of those of half as many calls."""
    if last is None:
        return ""
    more = framed.bytes / last[0]
    return (
        f", {more:.1f} times the bytes of the half (wanted: at most {MOST_GROWTH})"
        + (": long" if more > MOST_GROWTH else "")
        + f", its time as a multiple {ratio(spent, last[1], MOST_GROWTH)}"
    )


def main():
    talc = program()
    with folder() as place:
        source, target = f"{place}/text.f", f"{place}/text.tal"

        def written(text, bound):
            with open(source, "w", encoding="ascii") as file:
                file.write(text)
            return [talc, "compile", *([] if bound is None else ["--registers", str(bound)]), source, target]

        def made(text, bound):
            return Made(written(text, bound), target, bound)

        base = best(written("7", None), times=20, wanted=(0, ""))

        for name, text in sources():
            plain = made(text, None).walked(talc, target)
            print(
                f"{name}: {plain.instructions} instructions, {plain.bytes} bytes, "
                f"{'no end' if plain.steps is None else plain.steps} steps"
            )
            for bound in BOUNDS:
                framed = made(text, bound).walked(talc, target)
                if framed.text == plain.text:
                    print(f"  within {bound}: the same text")
                    continue
                more = None if plain.steps is None else framed.steps / plain.steps
                print(
                    f"  within {bound}: {times(framed.instructions, plain.instructions)} times the instructions, "
                    f"{times(framed.bytes, plain.bytes)} times the bytes, "
                    + ("no end" if more is None else f"{more:.1f} times the steps")
                    + f" (wanted: at most {MOST_STEPS[bound]})"
                    + (": slow" if more is not None and more > MOST_STEPS[bound] else "")
                )
        last = None
        for length in LINES:
            text = NINE + " + ".join(["1"] * length + NAMES)
            framed = made(text, BOUNDS[0])
            plain, spent = [Spent(written(text, bound), base, wanted=(0, "")) for bound in (None, BOUNDS[0])]
            print(
                f"{length} ones added up: {plain.seconds:.3f} s, within {BOUNDS[0]} {spent.seconds:.3f} s, "
                f"{framed.instructions} instructions"
                + (f", as a multiple of the half {ratio(spent, last, MOST_TIMES)}" if last else "")
            )
            last = spent
        last = None
        for number in CALLS:
            text = calls(number)
            framed = made(text, BOUNDS[0])
            spent = Spent(written(text, BOUNDS[0]), base, wanted=(0, ""))
            print(
                f"{number} calls: within {BOUNDS[0]} {framed.bytes} bytes, {spent.seconds:.3f} s"
                + grown(last, framed, spent)
            )
            last = framed.bytes, spent


main()
