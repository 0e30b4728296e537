"""The names of a text for tools/lsp: where each is bound and used, by a reading of the two grammars (docs/SOURCE.md,
docs/TAL.md). What a text means is never decided here: of a text that is refused the names before the fault are told."""
import bisect
import itertools
import re

SOURCE_TOKEN = re.compile(r"(--[^\n]*|[ \t\r\n]+)|->|:=|~?[0-9]+|[A-Za-z][A-Za-z0-9_]*|.", re.S)
SOURCE_WORDS = set("fix gen all int if0 let in pack open as some ref".split())
TAL_WORDS = set("tal code data all some pack as unpack add sub mul bnz ld st mov malloc jmp halt int".split())
NAME = re.compile(r"[A-Za-z][A-Za-z0-9_]*")
REGISTER = re.compile(r"r[0-9]+")


class Binder:
    """What binds a name: the word and the place of its form, and where the name stands."""

    def __init__(self, kind, how, form, start, name):
        self.kind, self.how, self.form, self.start, self.name = kind, how, form, start, name
        self.end = start + len(name)


class Symbol:
    """A part of the outline: a name, how it is bound, the whole of it, and the parts within."""

    def __init__(self, how, start, name_at, name):
        self.how, self.start, self.name_at, self.name = how, start, name_at, name
        self.end, self.parts = name_at + len(name), []


class Stop(Exception):
    """The text is not of the grammar, from here on."""


class Text:
    """A text cut into tokens, with its names as far as it could be read: `uses` are the place, the end and the binder
    of each name, in order; `unbound` those without one, each with the names that were in scope."""

    def __init__(self, text):
        found = [it for it in SOURCE_TOKEN.finditer(text) if not it[1]]
        self.tokens = [(it[0], it.start()) for it in found] + [("", len(text))]
        self.text, self.at, self.uses, self.unbound, self.outline = text, 0, [], [], []
        self.scopes, self.trail, self.inner, self.depth = {}, [], self.outline, 0
        try:
            self.read()
            self.is_whole = self.word == ""
        except (Stop, RecursionError):
            self.is_whole = False
        self.uses.sort(key=lambda it: it[0])
        self.starts = [it[0] for it in self.uses]

    @property
    def word(self):
        return self.tokens[self.at][0]

    @property
    def place(self):
        return self.tokens[self.at][1]

    @property
    def behind(self):
        """The end of the token before."""
        return self.tokens[self.at - 1][1] + len(self.tokens[self.at - 1][0]) if self.at else 0

    def take(self, *wanted):
        """Takes a token, one of these where some are wanted."""
        word, place = self.tokens[self.at]
        if word == "" or (wanted and word not in wanted):
            raise Stop
        self.at += 1
        return word, place

    def is_name(self):
        return bool(NAME.fullmatch(self.word)) and self.word not in self.words

    def take_name(self):
        if not self.is_name():
            raise Stop
        return self.take()

    def bind(self, kind, how, form, name, place):
        binder = Binder(kind, how, form, place, name)
        self.uses.append((place, place + len(name), binder))
        self.enter(binder)
        return binder

    def enter(self, binder):
        self.scopes.setdefault((binder.kind, binder.name), []).append(binder)
        self.trail.append(binder)

    def leave(self, mark):
        """Leaves all scopes that were entered behind the mark."""
        for it in self.trail[mark:]:
            self.scopes[it.kind, it.name].pop()
        del self.trail[mark:]

    def use(self, kind, name, place):
        found = self.scopes.get((kind, name))
        if found:
            self.uses.append((place, place + len(name), found[-1]))
        else:
            near = {it for of, it in self.scopes if of == kind and self.scopes[of, it]} if not self.unbound else set()
            self.unbound.append((place, name, near))

    def symbol(self, how, start, name_at, name):
        it = Symbol(how, start, name_at, name)
        self.inner.append(it)
        return it

    def within(self, symbol, call, *given):
        """Reads a part of the text whose outline belongs to a symbol."""
        outer, self.inner = self.inner, symbol.parts
        call(*given)
        self.inner = outer

    def in_scope(self, kind):
        """The names that are bound where the reading stopped; `depth` says within how many types that is."""
        return sorted({name for of, name in self.scopes if of == kind and self.scopes[of, name]})

    def binder_at(self, place):
        """The use of a name at a place, or just before it."""
        at = bisect.bisect_right(self.starts, place) - 1
        return self.uses[at] if at >= 0 and place <= self.uses[at][1] else None

    def all_of(self, binder):
        """The places of all uses of what one binder binds, with its own."""
        return [(start, end) for start, end, it in self.uses if it is binder]

    def shape(self):
        """Which use is of which binder: alike in two texts that differ in names and places alone."""
        order = {}
        return [order.setdefault(id(it), len(order)) for _, _, it in self.uses], len(self.unbound), self.is_whole


class Source(Text):
    """A text of the source language. `spine` are the places behind the `in`s of its outermost `let`s and `open`s."""
    words = SOURCE_WORDS

    def read(self):
        self.spine = []
        self.term(is_spine=True)

    def term(self, is_spine=False):
        mark = len(self.trail)
        fixes = []
        while True:
            word, form = self.tokens[self.at]
            if word == "fix":
                fixes.append(self.fix(form))
                self.inner = fixes[-1][0].parts
            elif word == "gen":
                self.take()
                self.bind("type", "gen", form, *self.take_name())
                self.take(".")
            elif word == "let":
                self.let(form)
            elif word == "open":
                self.open(form)
            elif word == "pack":
                self.pack()
                break
            else:
                self.sides()
                break
            if is_spine and word in ("let", "open"):
                self.spine.append(self.behind)
            is_spine = is_spine and word in ("let", "open")
        for symbol, outer in reversed(fixes):
            symbol.end, self.inner = self.behind, outer
        self.leave(mark)

    def fix(self, form):
        """The head of a `fix`: its part of the outline, and that which it stands in."""
        self.take("fix")
        name, place = self.take_name()
        self.take("(")
        argument = self.take_name()
        self.take(":")
        self.type()
        self.take(")")
        self.take(":")
        self.type()
        self.take(".")
        self.bind("value", "fix", form, name, place)
        self.bind("value", "argument", form, *argument)
        return self.symbol("fix", form, place, name), self.inner

    def let(self, form):
        self.take("let")
        name, place = self.take_name()
        symbol = self.symbol("let", form, place, name)
        self.take("=")
        self.within(symbol, self.term)
        symbol.end = self.behind
        self.take("in")
        self.bind("value", "let", form, name, place)

    def open(self, form):
        self.take("open")
        self.take("[")
        hidden = self.take_name()
        self.take(",")
        name, place = self.take_name()
        self.take("]")
        symbol = self.symbol("open", form, place, name)
        self.take("=")
        self.within(symbol, self.term)
        symbol.end = self.behind
        self.take("in")
        self.bind("type", "hidden", form, *hidden)
        self.bind("value", "open", form, name, place)

    def pack(self):
        self.take("pack")
        self.take("[")
        self.type()
        self.take(",")
        self.term()
        self.take("]")
        self.take("as")
        self.type()

    def sides(self):
        self.operation()
        if self.word == ":=":
            self.take()
            self.operation()

    def operation(self):
        self.call()
        while self.word in ("+", "-", "*"):
            self.take()
            self.call()

    def call(self):
        self.part()
        while True:
            if self.word == "[":
                self.take()
                self.type()
                self.take("]")
            elif self.is_name() or self.word in ("(", "<", "#", "if0", "ref", "!") or self.is_number():
                self.part()
            else:
                return

    def is_number(self):
        return bool(re.fullmatch("~?[0-9]+", self.word))

    def part(self):
        while self.word in ("#", "ref", "!"):
            if self.take()[0] == "#":
                self.take()
        if self.is_name():
            self.use("value", *self.take())
        elif self.is_number():
            self.take()
        elif self.word == "(":
            self.take()
            self.term()
            self.take(")")
        elif self.word == "<":
            self.take()
            self.row(self.term, ">")
        else:
            self.take("if0")
            self.take("(")
            for sign in ",,)":
                self.term()
                self.take(sign)

    def row(self, part, sign):
        """Parts between commas, up to and with a sign."""
        if self.word != sign:
            part()
            while self.word == ",":
                self.take()
                part()
        self.take(sign)

    def type(self):
        mark = len(self.trail)
        self.depth += 1
        while True:
            if self.word in ("all", "some"):
                how, form = self.take()
                self.bind("type", how, form, *self.take_name())
                self.take(".")
                continue
            while self.word == "ref":
                self.take()
            if self.is_name():
                self.use("type", *self.take())
            elif self.word == "(":
                self.take()
                self.type()
                self.take(")")
            elif self.word == "<":
                self.take()
                self.row(self.type, ">")
            else:
                self.take("int")
            if self.word != "->":
                break
            self.take()
        self.depth -= 1
        self.leave(mark)


class Tal(Text):
    """A text of typed assembly language. `blocks` are the places of the instructions of each block, by its label."""
    words = TAL_WORDS
    row = Source.row

    def read(self):
        self.blocks, self.registers = [], []
        pairs = zip(self.tokens, self.tokens[1:], self.tokens[2:])
        for (name, place), (colon, _), (word, _) in pairs:
            if colon == ":" and word in ("code", "data") and NAME.fullmatch(name):
                if ("label", name) not in self.scopes:
                    self.enter(Binder("label", word, place, place, name))
        self.trail.clear()
        self.take("tal")
        self.take()
        while self.word:
            name, place = self.take_name()
            self.use("label", name, place)
            self.take(":")
            how, _ = self.take("code", "data")
            symbol = self.symbol(how, place, place, name)
            try:
                if how == "code":
                    self.block(name)
                else:
                    self.take("<")
                    self.row(self.field, ">")
            finally:
                symbol.end = self.behind

    def is_name(self):
        return super().is_name() and not REGISTER.fullmatch(self.word)

    def field(self):
        self.operand()
        self.take(":")
        self.type()

    def binders(self, how):
        self.take("[")
        self.row(lambda: self.bind("type", how, self.place, *self.take_name()), "]")

    def block(self, name):
        instructions = []
        self.blocks.append((name, instructions))
        self.binders("code")
        self.file()
        self.take(".")
        while True:
            word, start = self.tokens[self.at]
            first = len(self.registers)
            instructions.append([start, start, word])
            self.take()
            self.instruction(word)
            instructions[-1][1] = self.behind
            self.registers[first:] = [(*it[:2], len(self.blocks) - 1, len(instructions) - 1)
                                      for it in self.registers[first:]]
            if word in ("jmp", "halt"):
                break
        self.leave(0)

    def instruction(self, word):
        if word in ("add", "sub", "mul"):
            self.register()
            self.take(",")
            self.register()
            self.take(",")
            self.operand()
        elif word in ("bnz", "mov"):
            self.register()
            self.take(",")
            self.operand()
        elif word == "ld":
            self.register()
            self.take(",")
            self.register()
            self.index()
        elif word == "st":
            self.register()
            self.index()
            self.take(",")
            self.register()
        elif word == "malloc":
            self.register()
            self.take("[")
            self.row(self.type, "]")
        elif word == "unpack":
            self.take("[")
            name = self.take_name()
            self.take(",")
            self.register()
            self.take("]")
            self.take(",")
            self.operand()
            self.bind("type", "unpack", name[1], *name)
        elif word == "jmp":
            self.operand()
        elif word == "halt":
            self.take("[")
            self.take("int")
            self.take("]")
        else:
            raise Stop

    def index(self):
        self.take("[")
        self.take()
        self.take("]")

    def register(self):
        if not REGISTER.fullmatch(self.word):
            raise Stop
        word, place = self.take()
        self.registers.append((place, place + len(word)))

    def operand(self):
        if self.word == "pack":
            self.take()
            self.take("[")
            self.type()
            self.take(",")
            self.operand()
            self.take("]")
            self.take("as")
            self.type()
            return
        if REGISTER.fullmatch(self.word):
            self.register()
        elif self.is_name():
            self.use("label", *self.take())
        elif re.fullmatch("~?[0-9]+", self.word):
            self.take()
        else:
            raise Stop
        if self.word == "[":
            self.take()
            self.row(self.type, "]")

    def file(self):
        self.take("{")
        self.row(self.entry, "}")

    def entry(self):
        if not REGISTER.fullmatch(self.word):
            raise Stop
        self.take()
        self.take(":")
        self.type()

    def type(self):
        mark = len(self.trail)
        self.depth += 1
        while self.word == "some":
            form = self.take()[1]
            self.bind("type", "some", form, *self.take_name())
            self.take(".")
        if self.word == "all":
            self.take()
            self.binders("all")
            self.file()
        elif self.word == "<":
            self.take()
            self.row(self.flagged, ">")
        elif self.is_name():
            self.use("type", *self.take())
        else:
            self.take("int")
        self.depth -= 1
        self.leave(mark)

    def flagged(self):
        self.type()
        self.take("^")
        self.take()

    def instruction_at(self, place):
        """The block and the number of the instruction at a place."""
        for number, (_, instructions) in enumerate(self.blocks):
            if instructions and instructions[0][0] <= place <= instructions[-1][1]:
                at = bisect.bisect_right(instructions, place, key=lambda it: it[0]) - 1
                return (number, at) if place <= instructions[at][1] else None
        return None

    def places(self):
        """The places of all labels of blocks and all instructions, in the order of the text."""
        return itertools.chain.from_iterable(it for _, it in self.blocks)


def is_assembly(text):
    """Whether the first token of a text, behind blanks and comments, is the word `tal`."""
    return re.match(r"(?:[ \t\r\n]|--[^\n]*(?:\n|\Z))*tal(?![A-Za-z0-9_])", text) is not None


def names_of(text):
    """The names of a text of either language."""
    return (Tal if is_assembly(text) else Source)(text)
