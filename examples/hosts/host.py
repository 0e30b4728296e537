"""host.py: takes texts of others. Assembly texts are checked and run, at once, by a guest in slices, with a cap on what
it keeps, and within a bound on memory; source texts are typed, evaluated, compiled, run and explained. Says what host.c
says.
python3 host.py FILE.tal FILE.f .."""
import os
import sys

sys.path[:0] = [os.environ.get("TALC_PY", os.path.join(os.path.dirname(os.path.abspath(__file__)), "../../host"))]
from talc import Fault, NoProgram, OutOfMemory, Run, Talc, Usage

FUEL, SLICE, LONG, BYTES, TUPLES, TURNS, DEPTH = 1000, 7, 1000000, 100000, 100, 1000, 2


def tried(call, *words):
    """What a call gives, as it is said, and the bytes that it makes, if any; None where memory was wanted."""
    try:
        it = call(*words)
    except Fault as fault:
        return f"{fault.code} {fault.start}..{fault.end}", b""
    except OutOfMemory:
        return "out of memory", None
    except (NoProgram, Usage):
        return "no such thing", b""
    if isinstance(it, Run):
        return (f"running after {it.made}" if it.value is None else f"int {it.value} after {it.made}"), b""
    if it is None:
        return "done", b""
    made = it[1] if isinstance(it, tuple) else it
    return f"{len(made)} bytes", made


def shown(guest, word, depth=DEPTH):
    """A word, and of a tuple its fields, so many deep."""
    kind, number = word
    if kind == "tuple" and depth:
        return f"<{', '.join(shown(guest, it, depth - 1) for it in guest.fields(number))}>"
    return str(number) if kind == "int" else f"block {number}" if kind == "block" else kind


def in_slices(guest):
    made = 0
    while made < FUEL:
        ran = guest.run(SLICE)
        made += ran.made
        if ran.value is not None:
            break
    return Run(ran.value, made)


def with_cap(talc, text, say):
    """Runs with a cap, and where that stops the guest, goes on with a larger one."""
    with talc.guest(text) as guest:
        guest.within(TUPLES, LONG)
        if say("with 100 tuples", guest.run, FUEL) is None:
            say.line(f"kept: {guest.kept()}")
            guest.within(LONG, LONG)
            say("with 1000000 tuples", guest.run, FUEL)


def take_guest(talc, text, say):
    with talc.guest(text) as guest:
        say("slices", in_slices, guest)
        (block, index), first, second = guest.place(), guest.reg(1), guest.reg(2)
        say.line(f"at {block}.{index}, r1: {shown(guest, first)}, r2: {shown(guest, second)}")
        say("collect", guest.collect)
        say.line(f"kept: {guest.kept()}")


def take_assembly(talc, text, say):
    say("check", talc.check, text)
    say("run", talc.run, text, FUEL)
    try:
        take_guest(talc, text, say)
        with_cap(talc, text, say)
    except Fault:
        pass
    talc.bound(BYTES)
    try:
        guest = None
        guest = talc.guest(text)
        say("within 100000 bytes", guest.run, LONG)
    except (Fault, OutOfMemory):
        say("within 100000 bytes", talc.run, text, LONG)
    talc.bound(None)
    if guest:
        guest.clear()
        say("cleared", guest.run, 1)
        say("cap of none", guest.within, TUPLES, TUPLES)
    else:
        say.line("cleared: no such thing")
        say.line("cap of none: no such thing")


def take_source(talc, text, say):
    say.first_line(say("typeof", talc.typeof, text))
    say.first_line(say("eval", talc.eval, text, TURNS))
    made = say("compile", talc.compile, text)
    if made:
        say("compiled", talc.run, made, FUEL)
    say("compile within 8 registers", talc.compile, text, 8)
    say("compile within 7 registers", talc.compile, text, 7)
    say("show closed", talc.show, text, "closed")
    say("show form 6", talc.show, text, "form 6")
    say.first_line(say("explain", talc.explain, text))


class Say:
    def __init__(self, name):
        self.name = name

    def __call__(self, what, call, *words):
        said, made = tried(call, *words)
        self.line(f"{what}: {said}")
        return made

    def line(self, text):
        print(f"{self.name}: {text}")

    @staticmethod
    def first_line(made):
        if made:
            print("  " + made.split(b"\n")[0].decode())


def main(paths):
    talc = Talc()
    for path in paths:
        with open(path, "rb") as file:
            text = file.read()
        name = os.path.basename(path)
        (take_assembly if name.endswith(".tal") else take_source)(talc, text, Say(name))
    print(f"held at the end: {talc.held()}")


main(sys.argv[1:])
