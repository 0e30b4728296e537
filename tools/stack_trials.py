"""The trials of examples/stackc.py, for tools/pages: its texts beside what a reading of the program in Python gives."""
import importlib.util
import random
import subprocess
import tempfile
from pathlib import Path

TOP = Path(__file__).resolve().parent.parent
FOLDER = TOP / "examples" / "stack"
DATA = TOP / "crates" / "rows" / "data"
OPERATIONS = {"+": lambda a, b: a + b, "-": lambda a, b: a - b, "*": lambda a, b: a * b}
# How many random programs are tried, of how many words at least, and how many words each may do.
PROGRAMS, WORDS, STEPS = 200, 12, 2000


def loaded():
    """The compiler as a module."""
    spec = importlib.util.spec_from_file_location("stackc", TOP / "examples" / "stackc.py")
    made = importlib.util.module_from_spec(spec)
    spec.loader.exec_module(made)
    return made


STACKC = loaded()


def wrapped(value):
    """The integer of 64 bits that these bits are."""
    return (value + 2**63) % 2**64 - 2**63


def partners(words):
    """Of each `if0` and `else` the place behind its `else` or `end`; of each `loop` and its `end` that of the other."""
    left, found = [], {}
    for at, word in enumerate(words):
        if word in ("if0", "loop"):
            left.append(at)
        elif word in ("else", "end"):
            before = left.pop()
            found[before] = at + 1
            if words[before] == "loop":
                found[at] = before
        if word == "else":
            left.append(at)
    return found


def done(stack, word):
    """Does a word that is no choice and no loop."""
    if word in OPERATIONS:
        last = stack.pop()
        stack.append(wrapped(OPERATIONS[word](stack.pop(), last)))
    elif word == "dup":
        stack.append(stack[-1])
    elif word == "drop":
        stack.pop()
    elif word == "swap":
        stack.append(stack.pop(-2))
    elif word == "rot":
        stack.append(stack.pop(-3))
    elif word not in ("end",):
        stack.append(int(word.replace("~", "-")))


def evaluated(text, steps):
    """The value that a program leaves, or nothing where it goes on after so many words."""
    words = STACKC.words(text)
    to, stack, at = partners(words), [], 0
    while at < len(words) and steps:
        word, here = words[at], at
        at, steps = at + 1, steps - 1
        if word == "else" or (word == "end" and here in to):
            at = to[here]
        elif word == "if0":
            at = at if stack.pop() == 0 else to[here]
        elif word == "loop":
            if stack[-1] == 0:
                stack.pop()
                at = to[here]
        else:
            done(stack, word)
    return stack[0] if at == len(words) else None


def line_of(value):
    """What `run` shows of this value."""
    return f"int {str(value).replace('-', '~')}"


def programs():
    """The programs of examples/stack."""
    return sorted(FOLDER.glob("*.stack"))


def texts():
    """The texts of examples/stack as crates/rows has them, by the name there."""
    read = ((it, it.read_text(encoding="utf-8")) for it in programs())
    return {f"stack-{path.stem}.tal": STACKC.compiled(text).encode() for path, text in read}


def write_texts():
    """Writes the texts for crates/rows anew."""
    for name, text in texts().items():
        (DATA / name).write_bytes(text)


def unlike(shown):
    """Programs of which crates/rows shows another line than the value that Python gives."""
    for path in programs():
        line = line_of(evaluated(path.read_text(encoding="utf-8"), 100000))
        if shown.get(f"stack-{path.stem}.tal", []) != ["accepted", line]:
            yield f"examples/stack/{path.name}: crates/rows does not show `accepted` and `{line}`"


# Random programs


def piece(chance, depth, size):
    """Words that leave one value more than the depth that they find, and touch nothing below."""
    kind = chance.choice(["number", "number", "sum", "copy", "choice", "loop"]) if size > 0 else "number"
    if kind == "number":
        return [chance.choice(["0", "1", "2", "3", "~5", "9223372036854775807", str(chance.randrange(100))])]
    first = piece(chance, depth, size - 2)
    if kind == "sum":
        return [*first, *piece(chance, depth + 1, size - 2), chance.choice(["+", "-", "*"])]
    if kind == "copy":
        return [*first, *chance.choice([["dup", "swap", "drop"], ["dup", "dup", "rot", "drop", "*"], ["dup", "-"]])]
    if kind == "choice":
        branches = (piece(chance, depth, size - 2) for _ in range(2))
        return [*first, "if0", *next(branches), "else", *next(branches), "end"]
    count = str(chance.randrange(4))
    return [*first, count, "loop", "swap", *piece(chance, depth + 2, size - 4), chance.choice(["+", "-"]), "swap",
            *chance.choice([["1", "-"], ["1", "-"], []]), "end"]


def random_text(chance):
    """A program by chance; now and then with a word too many, or one that is out of place."""
    words = piece(chance, 0, WORDS)
    if chance.random() < 0.3:
        words.insert(chance.randrange(len(words) + 1), chance.choice(["dup", "drop", "end", "else", "rot", "+", "x"]))
    return " ".join(words)


def misjudged(program):
    """Programs by chance whose text the built program refuses, or runs to another value than Python gives."""
    chance, taken = random.Random(1999), 0
    with tempfile.TemporaryDirectory(prefix="talc-stack-") as room:
        for _ in range(PROGRAMS):
            text, made = random_text(chance), f"{room}/made.tal"
            try:
                assembly = STACKC.compiled(text)
            except ValueError:
                continue
            taken += 1
            Path(made).write_text(assembly, encoding="utf-8")
            value = evaluated(text, STEPS)
            wanted = line_of(value) if value is not None else "running"
            if shown(program, "check", made) != "accepted":
                yield f"examples/stackc.py: `check` refuses the text of `{text}`"
            elif not shown(program, "run", made, "--fuel", str(10 * STEPS)).startswith(wanted):
                yield f"examples/stackc.py: `run` does not show `{wanted}` of `{text}`"
    if taken < PROGRAMS // 2:
        yield f"examples/stackc.py: {taken} of {PROGRAMS} programs by chance were taken"


def shown(program, *words):
    """What a command of the program shows."""
    run = subprocess.run([program, *words], capture_output=True, check=False, encoding="utf-8")
    return run.stdout.rstrip("\n")
