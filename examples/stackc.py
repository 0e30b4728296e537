#!/usr/bin/env python3
"""stackc.py FILE: compiles a program of a small stack language to an assembly text, which it puts out.

A number is put on the stack (`~7` is minus 7); `+`, `-` and `*` take two values and put their result there, with 64
bits that wrap; `dup` doubles the last value, `drop` takes it, `swap` exchanges the last two, `rot` brings the third
from the end to the end. `if0 A else B end` takes a value and does A where it is 0, else B; both leave as many values.
`loop A end` does A, which leaves as many values as there were, while the last value is not 0, and then takes that 0.
A program leaves one value. `--` begins a comment. Value i of the stack, the deepest being 1, stands in register i: how
many there are is known at each place, so each label says the registers that it wants. docs/TARGETING.md explains it."""
import re
import sys

ARITHMETIC = {"+": "add", "-": "sub", "*": "mul"}
TAKES = {"+": 2, "-": 2, "*": 2, "dup": 1, "drop": 1, "swap": 2, "rot": 3, "if0": 1, "loop": 1}
# How a word changes the number of values, and its moves as (to, from), both counted from the last value on.
MOVES = {"dup": (1, [(1, 0)]), "drop": (-1, []), "swap": (0, [(1, 0), (0, -1), (-1, 1)]),
         "rot": (0, [(1, -2), (-2, -1), (-1, 0), (0, 1)])}


def words(text):
    """The words of a program, without its comments."""
    return re.sub(r"--.*", "", text).split()


def is_number(word):
    """Whether a word writes an integer of 64 bits."""
    return bool(re.fullmatch(r"~?[0-9]{1,40}", word)) and -2**63 <= int(word.replace("~", "-")) < 2**63


def block(label, depth):
    """The header of a block that wants this many integers."""
    return f"{label}: code[]{{{', '.join(f'r{it}: int' for it in range(1, depth + 1))}}}."


def compiled(text):
    """The assembly text of a program. Ends with a ValueError where it is none."""
    lines, depth, count, left = ["tal 2", block("main", 0)], 0, 0, []
    for word in words(text):
        if TAKES.get(word, 0) > depth:
            raise ValueError(f"too few values for `{word}`")
        if is_number(word):
            depth += 1
            lines.append(f"mov r{depth}, {word}")
        elif word in ARITHMETIC:
            depth -= 1
            lines.append(f"{ARITHMETIC[word]} r{depth}, r{depth}, r{depth + 1}")
        elif word in MOVES:
            lines += [f"mov r{depth + to}, r{depth + it}" for to, it in MOVES[word][1]]
            depth += MOVES[word][0]
        elif word == "if0":
            depth, count = depth - 1, count + 1
            lines.append(f"bnz r{depth + 1}, else{count}")
            left.append(("if0", count, depth))
        elif word == "else" and left and left[-1][0] == "if0":
            _, at, before = left.pop()
            lines += [f"jmp end{at}", block(f"else{at}", before)]
            left.append(("else", at, depth))
            depth = before
        elif word == "loop":
            count += 1
            lines += [f"jmp loop{count}", block(f"loop{count}", depth), f"bnz r{depth}, body{count}"]
            lines += [f"jmp end{count}", block(f"body{count}", depth)]
            left.append(("loop", count, depth))
        elif word == "end" and left and left[-1][0] != "if0" and left[-1][2] == depth:
            kind, at, _ = left.pop()
            depth -= kind == "loop"
            lines += [f"jmp {'loop' if kind == 'loop' else 'end'}{at}", block(f"end{at}", depth)]
        else:
            raise ValueError(f"`{word}` is out of place")
    if left or depth != 1:
        raise ValueError("the program goes on, or does not leave one value")
    return "\n".join([*lines, "halt[int]\n"])


if __name__ == "__main__":
    try:
        with open(sys.argv[1], encoding="utf-8") as file:
            sys.stdout.write(compiled(file.read()))
    except (IndexError, OSError, ValueError) as error:
        sys.exit(f"stackc: {error}")
