"""Showing: `talc show` on sources of up to 100000 nodes, the limit, in each of the six forms, `talc types` on them, and
`talc listing` on what `compile` makes of them.

For each shape and form, for the types and for the listing it shows:

- processor seconds less those of the text `7`;
- bytes of the text shown for a node of the source;
- the time as a multiple of that of half the size (goal: at most 2.2);
- for the forms on the way to the assembly text, the time as a multiple of that of `compile` (goal: at most 1.5); for
  the types, of that of `typeof`, and for the listing, of that of `check` (goal for both: at most 5).

A text is shown as often as it takes to come to 0.05 seconds. A row that misses its goal says so.
"""
from measure import Spent, best, checked, folder, program, ratio
from shapes import branches, called_lets, calls, cells, functions, lets, ones, opens

SHAPES = [
    ("a sum", ones),
    ("nested calls of one function", calls),
    ("choices in a row", branches),
    ("functions in a row", functions),
    ("lets in a row", lets),
    ("calls in a row, each named", called_lets),
    ("packages opened in a row", opens),
    ("assignments in a row", cells),
]
FORMS = ["source", "cps", "closed", "hoisted", "allocated", "assembly"]
NODES, MOST_TIMES, MOST_OF_COMPILING, MOST_OF_CHECKING, MOST_OF_TYPING = 99000, 2.2, 1.5, 5, 5


def main():
    talc = program()
    with folder() as place:
        def written(name, text):
            with open(f"{place}/{name}", "w") as file:
                file.write(text)
            return f"{place}/{name}"

        seven = written("seven.f", "7")
        for shape, source in SHAPES:
            whole, half = written("whole.f", source(NODES)), written("half.f", source(NODES // 2))
            base = best([talc, "compile", seven, f"{place}/7.tal"], times=20)
            compiling = Spent([talc, "compile", whole, f"{place}/whole.tal"], base)
            for form in FORMS:
                base = best([talc, "show", seven, "--form", form], times=20)
                runs = [Spent([talc, "show", name, "--form", form], base) for name in (whole, half)]
                size = len(runs[0].run.text)
                print(
                    f"{shape}, {form}: {runs[0].seconds:.3f} s, {size / NODES:.1f} bytes a node, times the half: "
                    f"{ratio(*runs, MOST_TIMES)}, times compiling: {ratio(runs[0], compiling, MOST_OF_COMPILING)}"
                )
            show_types(talc, shape, seven, [whole, half])
            list_compiled(talc, shape, seven, [whole, half])


def show_types(talc, shape, seven, sources):
    """The row of a shape for `types` on the sources, the whole one and the half."""
    typing = Spent([talc, "typeof", sources[0]], best([talc, "typeof", seven], times=20))
    base = best([talc, "types", seven], times=20)
    runs = [Spent([talc, "types", name], base) for name in sources]
    print(
        f"{shape}, types: {runs[0].seconds:.3f} s, {len(runs[0].run.text) / NODES:.1f} bytes a node, times the half: "
        f"{ratio(*runs, MOST_TIMES)}, times typing: {ratio(runs[0], typing, MOST_OF_TYPING)}"
    )


def list_compiled(talc, shape, seven, sources):
    """The row of a shape for `listing` on the texts that `compile` makes of the sources, the whole one and the half."""
    def made(name):
        checked([talc, "compile", name, f"{name}.tal"])
        return f"{name}.tal"

    small, texts = made(seven), [made(name) for name in sources]
    checking = Spent([talc, "check", texts[0]], best([talc, "check", small], times=20))
    base = best([talc, "listing", small], times=20)
    runs = [Spent([talc, "listing", text], base) for text in texts]
    print(
        f"{shape}, listing: {runs[0].seconds:.3f} s, {len(runs[0].run.text) / NODES:.1f} bytes a node, times the half: "
        f"{ratio(*runs, MOST_TIMES)}, times checking: {ratio(runs[0], checking, MOST_OF_CHECKING)}"
    )


main()
