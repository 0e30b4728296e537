"""Checking of assembly programs: `talc check` compared with wabt's wasm-validate and wat2wasm, as ratios in one run.

All of them read a program of 1000000 instructions in 10000 blocks (functions). `talc` also reads one half as large.
Each line has its goal, and a row that misses it says so.
"""
from measure import available, best, best_in_turn, folder, program, ratio

BLOCKS = 10000
MOST_OF_BINARY, MOST_OF_TEXT, MOST_TIMES = 1.8, 1, 2.2


def assembly(blocks, each):
    """Blocks of so many instructions, ends included; each jumps to the next, the last halts."""
    body = ["ld r3, r2[0]", "add r1, r1, r3", "mul r4, r1, 7", "st r2[0], r4", "bnz r4, L1"]
    lines = ["tal 1"]
    for i in range(blocks):
        start = ["malloc r2[int]", "mov r1, 1", "st r2[0], r1"] if i == 0 else []
        lines.append(f"L{i}: code[]{{}}." if i == 0 else f"L{i}: code[]{{r1:int, r2:<int^1>}}.")
        lines += start + [body[k % len(body)] for k in range(each - 1 - len(start))]
        lines.append(f"jmp L{i + 1}" if i + 1 < blocks else "halt[int]")
    return "\n".join(lines) + "\n"


def module(blocks, each):
    lines = ["(module (memory 1)"]
    for i in range(blocks):
        lines.append("(func (param i64) (result i64)")
        lines += ["local.get 0"] + ["i64.const 7", "i64.add"] * ((each - 2) // 2)
        lines.append(")")
    lines.append(")")
    return "\n".join(lines) + "\n"


def main():
    talc, to_wasm, validate = program(), available("wat2wasm"), available("wasm-validate")
    with folder() as place:
        def times(each):
            with open(f"{place}/p.tal", "w") as file:
                file.write(assembly(BLOCKS, each))
            with open(f"{place}/p.wat", "w") as file:
                file.write(module(BLOCKS, each))
            best([to_wasm, f"{place}/p.wat", "-o", f"{place}/p.wasm"], times=1)
            return best_in_turn(
                ([talc, "check", f"{place}/p.tal"], (0, "accepted\n")),
                ([validate, f"{place}/p.wasm"], None),
                ([to_wasm, f"{place}/p.wat", "-o", f"{place}/p.wasm"], None),
            )

        whole, half = times(100), times(50)
        print(
            f"talc check, {100 * BLOCKS} instructions: {whole[0].seconds:.3f} s, "
            f"{100 * BLOCKS / whole[0].seconds:.2e} instructions a second, {whole[0].peak / 1e6:.0f} MB"
        )
        print(f"times the half: {ratio(whole[0], half[0], MOST_TIMES)}")
        peers = [
            ("wasm-validate, which reads binary", whole[1], MOST_OF_BINARY),
            ("wat2wasm, which reads and checks a text", whole[2], MOST_OF_TEXT),
        ]
        for name, run, most in peers:
            print(f"times {name}: {ratio(whole[0], run, most)}")


main()
