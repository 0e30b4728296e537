#!/usr/bin/env python3
"""Draws the pictures of the pages as SVG files beside this script, light and dark by the reader's setting.

- passes.svg: the passes, with one value in each form;
- house.svg: the groups of crates and what they depend on, read from crates.txt;
- machine.svg: the memory of the machine at one state.

With --check it writes nothing, and names each picture that differs. It ends with 1 then, else with 0."""
import sys
from html import escape
from pathlib import Path

HERE = Path(__file__).resolve().parent
TOP = HERE.parent.parent

STYLE = """
text { font: 14px system-ui, -apple-system, "Segoe UI", Helvetica, Arial, sans-serif; fill: #1f2328; }
.code { font-family: ui-monospace, SFMono-Regular, Menlo, Consolas, "DejaVu Sans Mono", monospace; font-size: 13px; white-space: pre; }
.small { font-size: 12px; }
.dim { fill: #59636e; }
.head { font-weight: 600; }
.mid { text-anchor: middle; }
.box { fill: #f6f8fa; stroke: #818b98; }
.own { fill: #ddf4ff; stroke: #0969da; }
.cell { fill: #ffffff; stroke: #818b98; }
.line { fill: none; stroke: #59636e; stroke-width: 1.4; }
.blue { stroke: #0969da; }
.tip { fill: #59636e; }
.bluetip { fill: #0969da; }
@media (prefers-color-scheme: dark) {
  text { fill: #f0f6fc; }
  .dim { fill: #9198a1; }
  .box { fill: #151b23; stroke: #656c76; }
  .own { fill: #0c2d6b; stroke: #4493f8; }
  .cell { fill: #0d1117; stroke: #656c76; }
  .line { stroke: #9198a1; }
  .blue { stroke: #4493f8; }
  .tip { fill: #9198a1; }
  .bluetip { fill: #4493f8; }
}
"""


class Drawing:
    def __init__(self, width, height, title):
        self.width, self.height, self.title, self.parts = width, height, title, []

    def text(self, x, y, words, kind=""):
        self.parts.append(f'<text x="{x:g}" y="{y:g}" class="{kind}">{escape(words)}</text>')

    def box(self, x, y, width, height, kind="box", round_by=6):
        size = f'width="{width:g}" height="{height:g}" rx="{round_by}"'
        self.parts.append(f'<rect x="{x:g}" y="{y:g}" {size} class="{kind}"/>')

    def path(self, steps, kind="", tip=True):
        """A line along these points, with a tip at its end."""
        self.parts.append(f'<path d="M{" L".join(f"{x:g} {y:g}" for x, y in steps)}" class="line {kind}"/>')
        if tip:
            self.tip(steps[-2], steps[-1], kind)

    def curve(self, start, end, kind=""):
        """A curve from one point down, or up, to another one that it meets upright."""
        (x, y), (to_x, to_y) = start, end
        half = (to_y - y) / 2
        along = f"M{x:g} {y:g} C{x:g} {y + half:g} {to_x:g} {to_y - half:g} {to_x:g} {to_y:g}"
        self.parts.append(f'<path d="{along}" class="line {kind}"/>')
        self.tip((to_x, to_y - half), end, kind)

    def tip(self, before, end, kind):
        (x, y), (to_x, to_y) = before, end
        across = (to_x > x) - (to_x < x) if abs(to_x - x) > abs(to_y - y) else 0
        down = 0 if across else (to_y > y) - (to_y < y)
        left = (to_x - 8 * across - 4 * down, to_y - 8 * down - 4 * across)
        right = (to_x - 8 * across + 4 * down, to_y - 8 * down + 4 * across)
        at = " ".join(f"{a:g},{b:g}" for a, b in (end, left, right))
        self.parts.append(f'<polygon points="{at}" class="{"bluetip" if "blue" in kind else "tip"}"/>')

    def made(self):
        inside = "\n".join(self.parts)
        size = f'viewBox="0 0 {self.width:g} {self.height:g}" width="{self.width:g}" height="{self.height:g}"'
        head = f"<title>{escape(self.title)}</title>\n<style>{STYLE}</style>"
        return f'<svg xmlns="http://www.w3.org/2000/svg" {size} role="img">\n{head}\n{inside}\n</svg>\n'


# The passes

# A form, the crates with its trees, and one value in it: the function `g` of docs/PASSES.md, which keeps x.
FORMS = [
    ("source", "f_terms", ["fix g(y:int):a. x"]),
    ("CPS", "k_terms", ["code x5[](x6: int, x7: code[](a)) { x7[](x3) }"]),
    ("closed", "c_terms", ["pack [<a>, <code .. [a], <x2>>]", "  as closure[](int, closure[](a))"]),
    ("hoisted", "h_terms", ["pack [<a>, <L2[a], <x1>>]", "  as closure[](int, closure[](a))"]),
    ("allocated", "a_terms", ["let x5 = malloc[code[](<a>, int, closure[](a)), <a>]", "let x6 = x5[1] <- L2[a]",
                              "let x7 = x6[2] <- x4", "let x8 = pack [<a>, x7] as closure[](int, closure[](a))"]),
    ("assembly", "t_terms", ["malloc r5[.., <T0^1>]", "mov r6, L3[T0]", "st r5[0], r6", "st r5[1], r4",
                             "mov r4, pack[<T0^1>, r5] as some T1. .."]),
]
# A pass, its crate, and what it does to that value.
PASSES = [
    ("conversion to CPS", "k_pass", "g takes a continuation, x7, and calls it with its result"),
    ("closure conversion", "c_pass", "what g uses from outside is in a tuple beside its code"),
    ("hoisting", "h_pass", "the code is a block, L2; its label replaces it"),
    ("allocation", "a_pass", "the tuple is made and filled step by step"),
    ("code generation", "t_gen", "each name has a register"),
]


def passes():
    line, between, left, code_at, width = 18, 46, 16, 178, 760
    heights = [max(54, 22 + line * len(code)) for _, _, code in FORMS]
    it = Drawing(width, sum(heights) + between * len(PASSES) + 24, "One function in each form of its program")
    y = 12
    for at, ((name, crate, code), height) in enumerate(zip(FORMS, heights)):
        it.box(left, y, 140, height, "own" if name in ("source", "assembly") else "box")
        it.text(left + 70, y + height / 2 - 2, name, "head mid")
        it.text(left + 70, y + height / 2 + 16, crate, "code small dim mid")
        it.box(code_at, y, width - code_at - 16, height, "cell")
        first = y + height / 2 - line * (len(code) - 1) / 2 + 5
        for row, words in enumerate(code):
            it.text(code_at + 14, first + line * row, words, "code")
        y += height
        if at < len(PASSES):
            name, crate, does = PASSES[at]
            it.path([(left + 70, y), (left + 70, y + between)])
            it.text(left + 84, y + between / 2 + 5, f"{name}", "small head")
            it.text(left + 222, y + between / 2 + 5, crate, "code small dim")
            it.text(left + 278, y + between / 2 + 5, does, "small dim")
            y += between
    return it


# The house

# The groups of crates.txt in its order: what a box says, its row from below, and its place in the row.
BOXES = [
    ("what every side uses", 0, 0.5), ("f: the source", 1, 0), ("k: CPS", 2, 0), ("c: closed", 3, 0), ("h: hoisted", 4, 0),
    ("a: allocated", 5, 0), ("t: the assembly language", 2, 1), ("t: checker and machine", 4, 3),
    ("t: code generation", 6, 0.5), ("t: the bound on registers", 4, 2), ("w: word code", 5, 3),
    ("x: the processor", 6, 3), ("words, forms, all passes", 7, 1.5),
    ("the tool", 8, 1.5), ("libraries for C, a host", 9, 1), ("tests and rows", 9, 2),
]


def groups():
    """The groups of crates.txt, each as its crates with all that they name."""
    for block in (TOP / "crates.txt").read_text(encoding="utf-8").split("\n\n")[1:]:
        rows = block.strip().splitlines()[1:]
        yield {row.split(":")[0].split()[0]: row.split(":")[1].split() for row in rows}


def below():
    """For each group the groups that it depends on, without those that another one of these depends on too."""
    every = list(groups())
    home = {name: at for at, crates in enumerate(every) for name in crates}
    on = [{home[rest] for named in crates.values() for rest in named if rest in home} - {at}
          for at, crates in enumerate(every)]
    deep = [set(it) for it in on]
    for _ in every:
        deep = [it.union(*(deep[one] for one in it)) for it in deep]
    return every, [{one for one in it if not any(one in deep[other] for other in it)} for it in on]


def house():
    every, on = below()
    if len(every) != len(BOXES):
        sys.exit("docs/pictures/draw.py: crates.txt has other groups than BOXES")
    return every, on


def wrapped(names, room):
    lines = [""]
    for name in names:
        if len(lines[-1]) + len(name) + 1 > room:
            lines.append("")
        lines[-1] = f"{lines[-1]} {name}".strip()
    return lines


# The machine

# A state of the machine: registers, and tuples with their fields; a word is its kind and what it shows.
REGISTERS = [("r1", "int", "41"), ("r2", "addr", "2 | 3"), ("r3", "label", "b1"), ("r4", "empty", "0")]
TUPLES = [("D0", [("int", "5"), ("addr", "1 | 2")]), ("D1", [("int", "6")]), ("by malloc", [("empty", "0"), ("label", "b1")])]


def machine():
    it = Drawing(760, 452, "The memory of the machine")
    wide, left = 92, 150
    it.text(16, 34, "registers", "head")
    it.text(16, 52, "a place each", "small dim")
    for at, (name, kind, shown) in enumerate(REGISTERS):
        x = left + at * (wide + 12)
        it.text(x + wide / 2, 20, name, "code small dim mid")
        it.box(x, 28, wide, 40, "cell", 2)
        it.text(x + wide / 2, 46, shown, "code mid")
        it.text(x + wide / 2, 62, kind, "small dim mid")
    fields = [(name, at, word) for at, (name, words) in enumerate(TUPLES) for word in words]
    starts, start = [], 0
    for _, words in TUPLES:
        starts.append(start)
        start += len(words)
    top = 218
    it.text(16, top - 60, "tuples", "head")
    at = 0
    for number, (name, words) in enumerate(TUPLES):
        x = left + at * wide
        it.box(x + 2, top - 84, wide * len(words) - 4, 40, "own", 4)
        it.text(x + wide * len(words) / 2, top - 67, f"{number}", "head mid")
        it.text(x + wide * len(words) / 2, top - 51, name, "small dim mid")
        at += len(words)
    for row, (label, says, high) in enumerate((("numbers", "8 bytes a field", 34), ("kinds", "1 byte a field", 30))):
        y = top + (0 if row == 0 else 34)
        it.text(16, y + 15, label, "head")
        it.text(16, y + 31 if row == 0 else y + 29, says, "small dim")
        for at, (_, _, (kind, shown)) in enumerate(fields):
            it.box(left + at * wide, y, wide, high, "cell", 0)
            it.text(left + at * wide + wide / 2, y + 21, shown if row == 0 else kind, "code mid" if row == 0 else "small dim mid")
    for at in range(len(fields)):
        it.text(left + at * wide + 4, top - 6, f"{at}", "code small dim")
    it.text(left + len(fields) * wide + 10, top - 6, "cells", "small dim")
    # r2 has the address of tuple 2, whose fields start at cell 3.
    from_x = left + 1 * (wide + 12) + wide / 2
    it.curve((from_x, 68), (left + starts[2] * wide + wide, top - 86), "blue")
    it.text(from_x + 110, 92, "an address: the tuple's index | its first cell", "small dim")
    y = top + 88
    it.text(16, y + 15, "starts", "head")
    it.text(16, y + 31, "4 bytes a tuple", "small dim")
    for at, it_starts in enumerate(starts):
        it.box(left + at * wide, y, wide, 34, "cell", 0)
        it.text(left + at * wide + wide / 2, y + 21, f"{it_starts}", "code mid")
    it.text(left + len(starts) * wide + 12, y + 21, "read by collections alone", "small dim")
    y += 62
    it.text(16, y + 15, "code", "head")
    it.text(16, y + 31, "24 bytes each", "small dim")
    for at, words in enumerate(["Pair ..", "st ..", "st ..", "jmp b1"]):
        it.box(left + at * wide, y, wide, 34, "cell", 0)
        it.text(left + at * wide + wide / 2, y + 21, words, "code mid")
    it.text(left + 4 * wide + 12, y + 14, "operands are resolved;", "small dim")
    it.text(left + 4 * wide + 12, y + 30, "a branch has the place of its block", "small dim")
    it.text(16, y + 68, "At most 2^32 - 1 tuples, and as many fields, at once. An unpack is a move: no types are left.", "small dim")
    return it


def house_drawing():
    every, on = house()
    wide, gap, room, line = 212, 24, 25, 16
    texts = [wrapped(crates, room) for crates in every]
    rows = max(row for _, row, _ in BOXES) + 1
    tall = [max(34 + line * len(texts[at]) for at, box in enumerate(BOXES) if box[1] == row) for row in range(rows)]
    between = 40
    bottom = sum(tall) + between * (rows - 1) + 16
    it = Drawing(4 * wide + 3 * gap + 32, bottom + 30, "The groups of crates and what they depend on")
    places = []
    for at, (name, row, column) in enumerate(BOXES):
        high = 34 + line * len(texts[at])
        low = bottom - sum(tall[:row]) - between * row
        places.append((16 + column * (wide + gap), low - high, high))
    for at, below_it in enumerate(on):
        x, y, high = places[at]
        for one in sorted(below_it):
            to_x, to_y, _ = places[one]
            start = x + wide / 2 + 0.5 * max(-120, min(120, to_x - x))
            end = to_x + wide / 2 + 0.5 * max(-120, min(120, x - to_x))
            it.curve((start, y + high), (end, to_y))
    for at, (name, row, _) in enumerate(BOXES):
        x, y, high = places[at]
        it.box(x, y, wide, high, "own" if name in ("the tool", "f: the source", "t: the assembly language") else "box")
        it.text(x + wide / 2, y + 20, name, "head mid")
        for number, words in enumerate(texts[at]):
            it.text(x + wide / 2, y + 38 + line * number, words, "code small dim mid")
    it.text(16, bottom + 22, "An arrow leads to what a group depends on; what that depends on too is left out.", "small dim")
    return it


def main():
    differ = []
    for name, drawing in (("passes", passes()), ("house", house_drawing()), ("machine", machine())):
        path, made = HERE / f"{name}.svg", drawing.made()
        if sys.argv[1:] == ["--check"]:
            if not path.exists() or path.read_text(encoding="utf-8") != made:
                differ.append(f"docs/pictures/{name}.svg: docs/pictures/draw.py makes another one")
        else:
            path.write_text(made, encoding="utf-8")
    print("\n".join(differ), end="\n" if differ else "")
    return 1 if differ else 0


if __name__ == "__main__":
    sys.exit(main())
