"""The stack that a text needs: for each way to nest constructs as deep as a text may (2000 open at a token), the least
stack with which `talc` still answers, in kilobytes, by command.

A host that gives other people's texts to a thread has to give it as much, and what the host itself needs. These figures
have no goal; docs/EMBEDDING.md and docs/C_LIBRARY.md show them.
"""
import resource
import subprocess

from measure import folder, program

DEEPEST = 1999
LEAST, MOST = 128 * 1024, 64 * 1024 * 1024
STEP = 16 * 1024


def tuples(n):
    return "malloc r1[" + "<" * n + ">" + "^0>" * (n - 1) + "] mov r1, 1 halt[int]"


def codes(n):
    return "malloc r1[" + "all[]{r1: " * n + "int" + "}" * n + "] mov r1, 1 halt[int]"


def packages(n):
    return "malloc r1[" + "some a. " * (n - 1) + "int] mov r1, 1 halt[int]"


def packs(n):
    return "mov r1, " + "pack[some a. a, " * (n - 1) + "pack[int, 1" + "] as some a. a" * n + " mov r1, 1 halt[int]"


def arguments(n):
    return "mov r1, L1[" + "<" * (n - 1) + ">" + "^0>" * (n - 2) + "] mov r1, 1 halt[int] L1: code[a]{}. jmp L1[a]"


def put(n):
    deep = "<" * (n - 20) + ">" + "^0>" * (n - 21)
    wide = "all[]{r1: " * (n - 20) + "a" + "}" * (n - 20)
    return f"mov r1, L1[{deep}] mov r2, 1 mov r1, r2 halt[int] L1: code[a]{{r1: {wide}}}. jmp L1[a]"


def block(body):
    return "tal 2\nL0: code[]{}. " + body + "\n"


def data(n):
    return ("tal 2\nD0: data <" + "pack[some a. a, " * (n - 2) + "pack[int, 1" + "] as some a. a" * (n - 1)
            + " : some a. a>\nL0: code[]{}. mov r1, 1 halt[int]\n")


TEXTS = [
    ("a flat text", block("mov r1, 1 halt[int]")),
    ("tuple types", block(tuples(DEEPEST))),
    ("code types", block(codes(DEEPEST))),
    ("types of packages", block(packages(DEEPEST))),
    ("types that a value is applied to", block(arguments(DEEPEST))),
    ("a type put into another", block(put(DEEPEST))),
    ("packages", block(packs(DEEPEST))),
    ("packages in data", data(DEEPEST)),
]

COMMANDS = [
    ("check", ["check", "IN"]),
    ("run", ["run", "IN", "--fuel", "100"]),
    ("upgrade", ["upgrade", "IN", "OUT"]),
    ("explain", ["explain", "IN"]),
    ("trace", ["trace", "IN", "--from", "0", "--to", "1"]),
]


def answers(words, stack):
    """Whether the command ends by itself with so much stack."""
    def bound():
        resource.setrlimit(resource.RLIMIT_STACK, (stack, stack))

    ended = subprocess.run(words, stdout=subprocess.DEVNULL, stderr=subprocess.DEVNULL, preexec_fn=bound, check=False)
    return ended.returncode >= 0


def least_stack(words):
    """The least stack with which the command ends by itself, to 16 KB."""
    low, high = LEAST, LEAST
    while not answers(words, high):
        low, high = high, 2 * high
        if high > MOST:
            return high
    while high - low > STEP:
        middle = (low + high) // 2
        if answers(words, middle):
            high = middle
        else:
            low = middle
    return high


def main():
    talc = program()
    print("least stack in KB" + "".join(f"{name:>9}" for name, _ in COMMANDS))
    with folder() as place:
        for name, text in TEXTS:
            with open(f"{place}/t.tal", "w", encoding="utf-8") as file:
                file.write(text)
            names = {"IN": f"{place}/t.tal", "OUT": f"{place}/u.tal"}
            found = [least_stack([talc, *(names.get(word, word) for word in words)]) for _, words in COMMANDS]
            print(f"{name:34}" + "".join(f"{it // 1024:9}" for it in found))


main()
