"""The machine step by step: `talc trace` on loops, on one long block and on a compiled program, each also at half the
lines.

For each it shows lines a second, bytes a line, peak memory for a byte of the output, and the time as a multiple of that
of half the lines (goal: at most 2.2). All are less those of `run` of the same text for as many instructions, which
reads and checks it too. Then come eleven lines after 100000000 instructions, compared with `run` to there (goal: at
most 1.1 times its time). A row that misses its goal says so.
"""
from measure import Run, best, folder, program, ratio

# The loop of examples/factorial.tal, with a number that it does not come to the end of.
LOOP = """tal 1
main: code[]{}.
mov r1, 1000000000000
jmp fact
fact: code[]{r1: int}.
mov r2, r1
mov r1, 1
jmp loop
loop: code[]{r1: int, r2: int}.
bnz r2, more
halt[int]
more: code[]{r1: int, r2: int}.
mul r1, r1, r2
sub r2, r2, 1
jmp loop
"""

FIBONACCI = "(fix f(n:int):int. if0(n, 0, if0(n - 1, 1, f(n - 1) + f(n - 2)))) 30"

MOST_TIMES, MOST_BESIDE = 2.2, 1.1


def loop(_):
    return LOOP


def wide(count):
    """A loop in which so many registers are known."""
    def text(_):
        registers = range(1, count + 1)
        file = ", ".join(f"r{i}: int" for i in registers)
        sets = "".join(f"mov r{i}, {i}\n" for i in registers)
        return f"tal 1\nmain: code[]{{}}.\n{sets}jmp loop\nloop: code[]{{{file}}}.\nadd r1, r1, 1\njmp loop\n"

    return text


def tuples(_):
    """A loop that fills a tuple and reads it again."""
    return (
        "tal 1\nmain: code[]{}.\nmov r1, 0\njmp loop\nloop: code[]{r1: int}.\nmalloc r2[int, int]\nst r2[0], r1\n"
        "st r2[1], r1\nld r3, r2[0]\nadd r1, r3, 1\njmp loop\n"
    )


def block(lines):
    """One block of as many instructions as lines are shown, and one more."""
    return "tal 1\nmain: code[]{}.\nmov r1, 0\n" + "add r1, r1, 1\n" * lines + "halt[int]\n"


CASES = [
    ("the loop of the factorial", loop, 1000000),
    ("a loop over 100 registers", wide(100), 100000),
    ("a loop that fills tuples", tuples, 400000),
    ("one block", block, 200000),
]


def main():
    talc = program()
    with folder() as place:
        name = f"{place}/text.tal"

        def written(text):
            with open(name, "w", encoding="ascii") as file:
                file.write(text)

        def traced(lines):
            """The run that shows so many lines, and the one that makes as many instructions."""
            last = str(lines - 1)
            shown = best([talc, "trace", name, "--from", "0", "--to", last], wanted=(4, None))
            if shown.text.count("\n") != lines + 1:
                raise SystemExit(f"{shown.text.count(chr(10))} lines for {lines}")
            return shown, best([talc, "run", name, "--fuel", last], wanted=(4, None))

        def row(case, text, lines):
            spent = []
            for count in [lines // 2, lines]:
                written(text(count))
                shown, ran = traced(count)
                peak = shown.peak - ran.peak
                shown.seconds = shown.rests = max(shown.seconds - ran.seconds, 1e-4)
                spent.append(shown)
            size, seconds = len(shown.text), shown.seconds
            print(
                f"{case}: {lines} lines, {seconds:.2f} s, {lines / seconds:.2e} lines a second, "
                f"{size / lines:.0f} bytes a line, {1e9 * seconds / size:.0f} ns a byte, "
                f"{peak / size:.1f} bytes of memory a byte, times the half: {ratio(spent[1], spent[0], MOST_TIMES)}"
            )

        for case, text, lines in CASES:
            row(case, text, lines)

        def compiled(_):
            written(FIBONACCI)
            target = f"{place}/made.tal"
            if Run([talc, "compile", name, target]).status != 0:
                raise SystemExit("the Fibonacci number is not compiled")
            with open(target, encoding="ascii") as file:
                return file.read()

        row("a compiled Fibonacci number", compiled, 40000)

        written(LOOP)
        late = best([talc, "trace", name, "--from", "100000000", "--to", "100000010"], wanted=(4, None))
        ran = best([talc, "run", name, "--fuel", "100000010"], wanted=(4, None))
        print(
            f"the loop of the factorial, {late.text.count(chr(10))} lines after 100000000 instructions: "
            f"{late.seconds:.2f} s, times `run` to there: {ratio(late, ran, MOST_BESIDE)}"
        )


main()
