"""The texts on which tools/native-test tries native code: those of the repository, seeds, and others made for it."""
import importlib.machinery
import importlib.util
import random
import re
from dataclasses import dataclass
from pathlib import Path

TOP = Path(__file__).resolve().parent.parent
# The folders whose texts are tried, beside those of the rows.
FOLDERS = ("examples", "examples/exercises", "examples/exercises/solutions", "examples/faults", "examples/hosts",
           "crates/example_host/data")
# The bounds of registers by which sources are compiled besides.
BOUNDS = (8, 9, 11)
# Where the data of an executable file begin. The heap is behind a few hundred bytes of them.
DATA_AT = 0x10000000
GREATEST = 2**63 - 1
# How many texts have integers that are addresses.
FORGED = 60


@dataclass(frozen=True)
class Text:
    """A source, which is compiled, within so many registers where a bound is given; or an assembly text; or a seed. Of
    a forged one the integers may be addresses, so that memory may run out though little is in use."""
    name: str
    data: bytes = b""
    seed: int | None = None
    registers: int | None = None
    forged: bool = False

    def is_assembly(self):
        """Whether the first token is `tal`."""
        return bool(re.match(rb"(?:\s|--[^\n]*(?:\n|$))*tal\b", self.data))


def loaded(path):
    """A script as a module."""
    name = path.stem.replace("-", "_")
    loader = importlib.machinery.SourceFileLoader(name, str(path))
    made = importlib.util.module_from_spec(importlib.util.spec_from_loader(name, loader))
    loader.exec_module(made)
    return made


def of_files():
    """The examples, exercises and guests, and the programs of examples/stack."""
    for folder in FOLDERS:
        for path in sorted((TOP / folder).iterdir()):
            if path.suffix in (".f", ".tal"):
                yield Text(f"{folder}/{path.name}", path.read_bytes())
    stackc = loaded(TOP / "examples" / "stackc.py")
    for path in sorted((TOP / "examples" / "stack").glob("*.stack")):
        yield Text(f"examples/stack/{path.name}", stackc.compiled(path.read_text(encoding="utf-8")).encode())


def of_rows():
    """The texts of crates/rows, each once."""
    rows, seen = loaded(TOP / "tools" / "rows"), set()
    for file in sorted(rows.DATA.glob("*.toml")):
        for row in rows.rows_of(file):
            data = rows.content(row.get("text"))
            if "text" in row and data not in seen:
                seen.add(data)
                yield Text(f"crates/rows/data/{file.name}: {row['name']} ({len(seen)})", data)


def of_seeds(count):
    """The sources of the first seeds, a third of them compiled within few registers."""
    for seed in range(count):
        yield Text(f"seed {seed}", seed=seed, registers=BOUNDS[seed % 9 // 3] if seed % 3 == 0 else None)


def bounded(texts):
    """These texts, and the sources of examples once more within few registers."""
    for text in texts:
        yield text
        if text.name.startswith("examples/") and not text.is_assembly():
            yield Text(f"{text.name} within {BOUNDS[0]} registers", text.data, registers=BOUNDS[0])


# Texts by hand: each has something that programs of the compiler have not, or seldom.


def assembly(*lines):
    return "\n".join(("tal 2", *lines, "")).encode()


def shows(value):
    """A text that halts with this integer."""
    return assembly("L0: code[]{}.", f"mov r1, {'~' if value < 0 else ''}{abs(value)}", "halt[int]")


def wide(fields):
    """Two tuples of so many fields, in a loop; what is read of them is added up."""
    return assembly(
        "L0: code[]{}.", "mov r1, 40", "mov r2, 0", "jmp L1", "L1: code[]{r1: int, r2: int}.",
        f"malloc r3[{', '.join(['int'] * fields)}]",
        *(f"st r3[{it}], r1" for it in range(fields)),
        f"malloc r4[{', '.join(['int'] * fields)}]",
        *(f"ld r5, r3[{it}]\nst r4[{it}], r5\nadd r2, r2, r5" for it in range(0, fields, max(1, fields // 9))),
        "sub r1, r1, 1", "bnz r1, L1", "mov r1, r2", "halt[int]")


def numbered(numbers):
    """Registers of these numbers, all kept over tuples that are dropped, and added up at the end."""
    file = ", ".join(f"r{it}: int" for it in (1, *numbers))
    return assembly(
        "L0: code[]{}.", *(f"mov r{it}, {7 * it + 1}" for it in numbers), "mov r1, 20000", "jmp L1",
        f"L1: code[]{{{file}}}.", "malloc r2[int, int]", "st r2[0], r1", f"add r{numbers[-1]}, r{numbers[0]}, r1",
        "sub r1, r1, 1", "bnz r1, L1", *(f"mul r1, r1, 3\nadd r1, r1, r{it}" for it in numbers), "halt[int]")


def replaced(fields):
    """A data tuple each of whose fields names a tuple, which is replaced again and again, and lives through it alone.
    """
    pairs = ", ".join("cell : <int^1>" for _ in range(fields))
    return assembly(
        f"cells: data <{pairs}>", "cell: data <1 : int>", "L0: code[]{}.", "mov r1, 3000", "mov r2, 0", "jmp L1",
        "L1: code[]{r1: int, r2: int}.", "mov r3, cells",
        *(f"malloc r4[int]\nst r4[0], r1\nld r5, r3[{it}]\nld r6, r5[0]\nadd r2, r2, r6\nmul r2, r2, 3\nst r3[{it}], r4"
          for it in range(fields)),
        "sub r1, r1, 1", "bnz r1, L1", "mov r1, r2", "halt[int]")


PARTIAL = assembly(
    "L0: code[]{}.", "mov r1, 9000", "mov r2, 0", "jmp L1", "L1: code[]{r1: int, r2: int}.",
    "malloc r3[int, int, int, int]", "st r3[1], r1", "malloc r4[int, int, int]", "malloc r5[int, int]", "st r5[0], r1",
    "malloc r6[int, int, int, int, int, int, int, int]", "ld r7, r3[1]", "add r2, r2, r7", "st r3[3], r2",
    "ld r7, r5[0]", "sub r2, r2, r7", "ld r7, r3[3]", "mul r7, r7, 2", "add r2, r2, r7",
    "sub r1, r1, 1", "bnz r1, L1", "mov r1, r2",
    "halt[int]")

# A tuple whose field has come to name it, and chains of such that are dropped.
CYCLE = assembly(
    "L0: code[]{}.", "mov r1, 9000", "mov r2, pack[int, 0] as some a. a", "jmp L1",
    "L1: code[]{r1: int, r2: some a. a}.", "malloc r3[some a. a, some a. a, int]", "st r3[0], r2", "st r3[1], r2",
    "st r3[2], r1", "mov r4, pack[<some a. a^1, some a. a^1, int^1>, r3] as some a. a", "st r3[0], r4",
    "ld r5, r3[2]", "sub r1, r5, 1", "bnz r1, L1", "ld r1, r3[2]", "halt[int]")

# A block that is left between two tuples of it, by a label and by a register.
LEFT = assembly(
    "L0: code[]{}.", "mov r1, 9000", "mov r2, 1", "mov r9, L2", "jmp L1",
    "L1: code[]{r1: int, r2: int, r9: all[]{r1: int, r2: int, r3: <int^1>}}.", "malloc r3[int]", "st r3[0], r1",
    "mul r4, r1, r1", "sub r4, r4, 81", "bnz r2, r9", "malloc r5[int, int]", "st r5[0], r1", "bnz r4, L2",
    "malloc r6[int, int, int]", "st r6[2], r1", "ld r1, r6[2]", "jmp L2",
    "L2: code[]{r1: int, r2: int, r3: <int^1>}.", "ld r4, r3[0]", "sub r1, r4, 1", "sub r2, r2, r2",
    "mov r9, L2", "bnz r1, L1", "halt[int]")

# Code that is applied to types a few at a time, kept in a tuple, and gone to from there.
CODE = assembly(
    "L0: code[]{}.", "malloc r2[all[a]{r1: int, r3: a}, int]", "mov r3, L1", "mov r4, r3[int]", "mov r5, 5",
    "st r2[0], r4", "st r2[1], r5", "ld r6, r2[0]", "ld r1, r2[1]", "malloc r3[]", "jmp r6[<>]",
    "L1: code[b, a]{r1: int, r3: a}.", "sub r1, r1, 1", "bnz r1, L1[b, a]", "mov r1, 77", "halt[int]")


def wants_memory(fields):
    """A list that is kept, without an end."""
    return assembly(
        "L0: code[]{}.", "mov r1, pack[int, 0] as some a. a", "jmp L1", "L1: code[]{r1: some a. a}.",
        f"malloc r2[some a. a{', int' * fields}]", "st r2[0], r1",
        "mov r1, pack[<some a. a^1" + ", int^0" * fields + ">, r2] as some a. a", "jmp L1")


def by_hand():
    """Integers of each length, wide tuples, many registers, data that are replaced, and the texts above."""
    values = {0, 1, -1, GREATEST, -GREATEST, -GREATEST - 1, *(10**it for it in range(19)),
              *(1 - 10**it for it in range(19)), *(-(2**it) for it in range(7, 64, 8)), 0x7FFFFFFF, 0x80000000}
    for value in sorted(values):
        yield Text(f"by hand: the integer {value}", shows(value))
    for fields in (1, 7, 300, 3000):
        yield Text(f"by hand: tuples of {fields} fields", wide(fields))
    for numbers in (range(3, 14), range(3, 30), range(5, 467300, 7919)):
        yield Text(f"by hand: registers up to {numbers[-1]}", numbered(numbers))
    yield Text("by hand: data that are replaced", replaced(40))
    named = {"fields that are not stored": PARTIAL, "a cycle": CYCLE, "blocks that are left": LEFT,
             "code in a tuple": CODE}
    for name, data in named.items():
        yield Text(f"by hand: {name}", data)


# Texts whose integers are addresses of the heap, and numbers as they stand before the fields of a tuple.


def forged_number(chance):
    """An address in the heap, mostly a multiple of 8, or a number that may be one of fields."""
    if chance.random() < 0.25:
        return chance.choice((1, 2, 3, 8, 40, 1000, 2**61, GREATEST, chance.randrange(1, 9000)))
    span = chance.choice((0x400, 0x10000, 0x12000, 0x100000, 0x2A000000))
    return DATA_AT + 8 * chance.randrange(span // 8) + (0 if chance.random() < 0.9 else chance.randrange(8))


def forged_assembly(chance):
    """A loop that makes tuples of such integers, keeps the last ones, and adds up what is read of them."""
    fields, kept, turns = chance.randrange(1, 7), chance.randrange(2, 6), chance.randrange(2000, 60000)
    tuple_type = f"<{', '.join(['int^1'] * fields)}>"
    filled = [f"mov r10, {forged_number(chance)}\nst r20[{it}], r10" for it in range(fields)]
    malloc = f"malloc r20[{', '.join(['int'] * fields)}]"
    file = ", ".join([*(f"r{30 + it}: {tuple_type}" for it in range(kept)), "r1: int", "r2: int", "r3: int"])
    stored = [f"add r10, r2, {8 * chance.randrange(-9, 9) % 2**62}\nst r20[{it}], r10" for it in range(fields)]
    read = [f"ld r10, r{30 + chance.randrange(kept)}[{chance.randrange(fields)}]\nmul r3, r3, 5\nadd r3, r3, r10"
            for _ in range(4)]
    return assembly(
        "L0: code[]{}.", malloc, *filled, *(f"mov r{30 + it}, r20" for it in range(kept)), f"mov r1, {turns}",
        f"mov r2, {forged_number(chance)}", "mov r3, 1", "jmp L1", f"L1: code[]{{{file}}}.", malloc, *stored,
        *(f"mov r{30 + it}, r{31 + it}" for it in range(kept - 1)), f"mov r{29 + kept}, r20", *read,
        f"add r2, r2, {8 * chance.randrange(1, 40)}", "sub r1, r1, 1", "bnz r1, L1", "mov r1, r3", "halt[int]")


def forged_source(chance):
    """Functions that keep tuples of such integers while they call each other."""
    a, b, c = (forged_number(chance) for _ in range(3))
    turns, step = chance.randrange(200, 2000), 8 * chance.randrange(1, 40)
    kind = chance.randrange(3)
    if kind == 0:
        text = f"(fix f(n:int):int. if0(n, {a}, let p = <n, {b} + n * {step}, {c}> in #2 p - f (n - 1) * 3 + #3 p))"
    elif kind == 1:
        text = (f"(fix f(n:int):int. let p = <{a} + n * {step}, <{b} - n * 8, {c}>> in "
                "if0(n, #1 p, (fix g(x:int):int. x - #1 #2 p) (f (n - 1)) * 3 + #1 p))")
    else:
        text = (f"(fix f(n:int):int. let g = fix g(x:int):int. x * {step} + {a} + n in "
                f"if0(n, {b}, let r = f (n - 1) in g r - g {c}))")
    return f"{text} {turns}".encode()


def forged(count=FORGED):
    for it in range(count):
        chance = random.Random(it)
        data = forged_source(chance) if it % 3 == 2 else forged_assembly(chance)
        yield Text(f"forged {it}", data, forged=True)


def all_texts(seeds):
    """All texts, with so many seeds."""
    texts = [*of_files(), *of_rows(), *by_hand(), *forged()]
    return [*bounded(texts), *of_seeds(seeds)]
