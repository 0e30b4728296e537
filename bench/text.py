"""Reading and writing of assembly texts: `talc` compared with wabt's wat2wasm on a text of similar size, in one run,
where that is installed.

`talc check` of a text whose last name is not bound only reads it. `talc upgrade` reads, checks and writes one, and
takes more than `talc check` by the writing alone. wat2wasm reads a text and writes binary. The goals for reading and
writing: at most 2.2 times the time for twice the text, and at most wat2wasm's time a byte. A row that misses its goal
says so. With a number as its one word it takes texts of that many bytes in place of 10000000, for a first look.
"""
import shutil
import sys
from pathlib import Path

from measure import best, folder, program, ratio

BLOCK, SIZE = 40, 10_000_000
MOST_TIMES, MOST_OF_TEXT = 2.2, 1
# The status of a text that is refused.
REFUSED = 1


def assembly(size, last):
    """Blocks of 40 instructions that jump to one another, and the last one to this label, at least so many bytes."""
    body = ["malloc r3[int, <int^1, int^0>, all[a]{r1:a, r2:some b. b}]", "mov r4, pack[int, 7] as some c. c"]
    body += ["add r1, r1, 12345", "mul r1, r1, r1", "mov r5, r4"] * ((BLOCK - 3) // 3)
    lines, written, count = ["tal 1"], 0, 0
    block = "\n".join(body)
    while written < size:
        header = "{}" if count == 0 else "{r1:int}"
        first = "mov r1, 1\n" if count == 0 else ""
        lines.append(f"L{count}: code[]{header}.\n{first}{block}\njmp L{max(count, 1)}")
        written += len(lines[-1]) + 1
        count += 1
    lines.append(f"L{count}: code[]{{r1:int}}.\njmp {last}")
    if count == 1:
        lines.append("L1: code[]{r1:int}.\nhalt[int]")
    return "\n".join(lines) + "\n"


def module(size):
    """Functions of 40 instructions, at least so many bytes."""
    body = "\n".join(["local.get 0\ni64.const 12345\ni64.add\nlocal.set 0"] * (BLOCK // 4))
    lines, written = ["(module"], 0
    while written < size:
        lines.append(f"(func (param i64) (result i64)\n{body}\nlocal.get 0)")
        written += len(lines[-1]) + 1
    return "\n".join(lines + [")"]) + "\n"


class Copied:
    """What it takes to read a text and to write it again: seconds, and how many of them are for reading."""

    def __init__(self, talc, place, size):
        whole, cut = f"{place}/p.tal", f"{place}/cut.tal"
        text = assembly(size, "L1")
        Path(whole).write_text(text, encoding="ascii")
        Path(cut).write_text(assembly(size, "none"), encoding="ascii")
        read = best([talc, "check", cut], wanted=(REFUSED, None))
        checked = best([talc, "check", whole])
        upgraded = best([talc, "upgrade", whole, f"{place}/q.tal"])
        self.size, self.peak, self.reading = len(text), upgraded.peak, read.seconds
        self.seconds = self.rests = read.seconds + max(0.0, upgraded.seconds - checked.seconds)


def main(size):
    talc, to_wasm = program(), shutil.which("wat2wasm")
    with folder() as place:
        whole, half = Copied(talc, place, size), Copied(talc, place, size // 2)
        print(
            f"{whole.size} bytes: {whole.seconds:.2f} s, {whole.reading:.2f} of them to read, "
            f"{whole.size / whole.seconds:.2e} bytes a second; at most {whole.peak / 1e6:.0f} MB with the check"
        )
        print(f"times the half: {ratio(whole, half, MOST_TIMES)}")
        if not to_wasm:
            print("wat2wasm is not installed, so nothing is beside it")
            return
        wat = module(size)
        Path(f"{place}/p.wat").write_text(wat, encoding="ascii")
        theirs = best([to_wasm, f"{place}/p.wat", "-o", f"{place}/p.wasm"])
        print(f"times wat2wasm's time a byte: {ratio(whole, theirs, MOST_OF_TEXT, whole.size / len(wat))}")


main(int(sys.argv[1]) if len(sys.argv) > 1 else SIZE)
