"""Reading and checking of source texts: `talc typeof` on the largest legal texts, and on texts half as large.

For each text it shows processor seconds less those of the text `7`, nanoseconds a byte, peak memory for a byte beyond
that of the text `7`, and the time as a multiple of that of the half (goal: at most 2.2). A text is read as often as it
takes to come to 0.05 seconds. A row that misses its goal says so.
"""
from measure import Spent, best, folder, program, ratio


def spaces(n):
    line = b"-- a comment of the source\n   \t\n"
    text = line * ((n - 1) // len(line))
    return text + b" " * (n - 1 - len(text)) + b"7"


def ones(n):
    return b" + ".join([b"1"] * n)


def large_types(pieces, fields):
    """A sum of numbers taken out of pairs; each pair holds a function of a wide tuple."""
    wide = b"<" + b",".join([b"int"] * fields) + b">"
    piece = b"#1 <1, fix f(x:" + wide + b"):int. 1>"
    return b" + ".join([piece] * pieces)


def lets(n):
    return b"let x = 0 in " + b"let x = x + 1 in " * (n - 1) + b"x"


def wide_lets(n, fields):
    """So many names, one after the other, of one tuple."""
    return b"let x = <" + b",".join([b"1"] * fields) + b"> in " + b"let x = x in " * (n - 1) + b"#1 x"


def far_names(n):
    """So many names, of which each is that of the first."""
    return b"let c = 1 in " + b"let x = c in " * n + b"c"


def packs(n):
    """A package in a package in a package."""
    around = b"let x = pack[some a. a, x] as some a. a in " * n
    return b"let x = pack[int, 1] as some a. a in " + around + b"#1 <2, x>"


def opens(n):
    """So many hidden types in scope, each with a name of its own."""
    return b"open [a, x] = pack[int, 1] as some b. b in " * n + b"1"


def cells(n):
    return b"let c = ref 0 in " + b"let u = c := !c + 1 in " * n + b"!c"


# The largest texts by the limits of 16777216 bytes and 100000 nodes, and packages in packages.
CASES = [
    ("white space and comments, 16777216 bytes", spaces(16777216), spaces(8388608)),
    ("a sum of 50000 ones", ones(50000), ones(25000)),
    ("400 types of 9990 fields", large_types(400, 9990), large_types(200, 9990)),
    ("2700 types of 1500 fields", large_types(2700, 1500), large_types(1350, 1500)),
    ("25000 lets", lets(25000), lets(12500)),
    ("49000 lets, each of the first name", far_names(49000), far_names(24500)),
    ("2000 lets of a tuple of 1500 fields", wide_lets(2000, 1500), wide_lets(1000, 1500)),
    ("2500 packages, each in the next", packs(2500), packs(1250)),
    ("30000 packages opened", opens(30000), opens(15000)),
    ("14000 assignments", cells(14000), cells(7000)),
]
MOST_TIMES = 2.2


def main():
    talc = program()
    with folder() as place:
        def written(text):
            name = f"{place}/text.f"
            with open(name, "wb") as file:
                file.write(text)
            return [talc, "typeof", name]

        base = best(written(b"7"), times=20, wanted=(0, "int\n"))
        print(f"the text 7: {base.seconds:.4f} s, {base.peak / 1e6:.1f} MB")
        for name, *texts in CASES:
            whole, half = [Spent(written(text), base, times=5, wanted=(0, "int\n")) for text in texts]
            size = len(texts[0])
            print(
                f"{name}: {size} bytes, {whole.seconds:.3f} s, {1e9 * whole.seconds / size:.0f} ns a byte, "
                f"{whole.bytes / size:.1f} bytes of memory a byte, times the half: {ratio(whole, half, MOST_TIMES)}"
            )


main()
