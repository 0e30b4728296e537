"""The proved checker, machine and compiler of talc, by ctypes.

Needs libtal_c.so, and for source texts libtalc_c.so: in the folder that TALC_LIB names, beside this file, or where
tools/install puts them, in ../../lib of this file.

    from talc import Talc, Fault
    talc = Talc()
    try:
        text = talc.compile(b"6 * 7")
        print(talc.run(text, 1000).value)
    except Fault as fault:
        print(fault.code, fault.start, fault.end)

A Guest is used by one thread at a time."""
import ctypes as c
import os
from typing import NamedTuple, Optional

VERSION = 1
DONE, REFUSED, EMPTY, LIMIT, BUDGET, MEMORY, SMALL = 0, 1, 2, 3, 4, 7, 8
NONE, INT, TUPLE, BLOCK = "none", "int", "tuple", "block"
FORMS = ("source", "cps", "closed", "hoisted", "allocated", "assembly")
_U32, _U64, _SIZE, _TEXT, _AT = c.c_uint32, c.c_uint64, c.c_size_t, c.c_char_p, c.c_void_p


class Fault(Exception):
    """The text is refused: by the rule or limit `code`, as "T03", at the bytes from `start` to before `end`."""

    def __init__(self, code, start, end):
        super().__init__(f"{code} {start}..{end}")
        self.code, self.start, self.end = code, start, end

    @property
    def is_limit(self):
        return self.code[0] in "LM"


class OutOfMemory(MemoryError):
    """Memory was wanted and not had, or the bound on it would be passed, after `made` instructions."""

    def __init__(self, made=0):
        super().__init__(f"out of memory after {made} instructions")
        self.made = made


class NoProgram(Exception):
    """The guest is empty."""


class Usage(ValueError):
    """There is no such form, or the registers are too few."""


class Run(NamedTuple):
    """How a run ended: with the integer `value`, or with None where it goes on, after `made` instructions."""

    value: Optional[int]
    made: int


class _Answer(c.Structure):
    _fields_ = [("status", _U32), ("code", _U32), ("start", _U64), ("end", _U64), ("value", c.c_int64), ("made", _U64)]


class _Word(c.Structure):
    _fields_ = [("kind", _U32), ("number", _U64), ("value", c.c_int64)]


class _Place(c.Structure):
    _fields_ = [("status", _U32), ("block", _U64), ("index", _U64)]


class _Made(c.Structure):
    _fields_ = [("status", _U32), ("code", _U32), ("start", _U64), ("end", _U64), ("length", _U64)]


def _code(number):
    letter, digits = {1: "T2", 2: "M1", 3: "E2", 4: "L1"}[number // 100]
    return f"{letter}{number % 100:0{digits}}"


def _taken(answer):
    """The answer, where it is none of the errors."""
    if answer.code:
        raise Fault(_code(answer.code), answer.start, answer.end)
    if answer.status == MEMORY:
        raise OutOfMemory(getattr(answer, "made", 0))
    return answer


def _found(name):
    here = os.path.dirname(os.path.abspath(__file__))
    for folder in (os.environ.get("TALC_LIB"), here, os.path.join(here, "..", "..", "lib")):
        if folder and os.path.exists(os.path.join(folder, name)):
            return os.path.join(folder, name)
    return name


def _loaded(name, **how):
    try:
        return c.CDLL(_found(name), **how)
    except OSError as error:
        raise OSError(f"{error}: {name} is looked for in the folder that TALC_LIB names, beside {__file__}, and in "
                      "../../lib from there; in a checkout of talc `host/libraries FOLDER` puts it into a folder") from None


class Talc:
    """The calls of both libraries. Texts are bytes."""

    def __init__(self):
        self._machine = _loaded("libtal_c.so", mode=c.RTLD_GLOBAL)
        self._compiler = None
        self._declare(self._machine, "talc_version", _U32)
        self._declare(self._machine, "talc_guest_size", _SIZE)
        for name, result, *given in (
            ("talc_check", _Answer, _TEXT, _SIZE), ("talc_run", _Answer, _TEXT, _SIZE, _U64),
            ("talc_guest_init", None, _AT), ("talc_guest_clear", None, _AT),
            ("talc_guest_load", _Answer, _AT, _TEXT, _SIZE), ("talc_guest_run", _Answer, _AT, _U64),
            ("talc_guest_reserve", _Answer, _AT, _U64, _U64), ("talc_guest_collect", _Answer, _AT),
            ("talc_guest_within", _Answer, _AT, _U64, _U64), ("talc_guest_kept", _U64, _AT),
            ("talc_guest_reg", _Word, _AT, _U64), ("talc_guest_field", _Word, _AT, _U64, _U64),
            ("talc_guest_place", _Place, _AT),
            ("talc_heap_bound", None, _SIZE), ("talc_heap_held", _SIZE), ("talc_heap_most", _SIZE),
        ):
            self._declare(self._machine, name, result, *given)
        self._same(self._machine.talc_version())

    @staticmethod
    def _declare(library, name, result, *given):
        call = getattr(library, name)
        call.restype, call.argtypes = result, given

    @staticmethod
    def _same(version):
        if version != VERSION:
            raise ImportError(f"a library of version {version} of talc, and not {VERSION}")

    # assembly texts

    def check(self, text: bytes) -> None:
        """Returns where the typing rules accept the text, else raises its first Fault."""
        _taken(self._machine.talc_check(text, len(text)))

    def run(self, text: bytes, fuel: int) -> Run:
        """Checks the text, and runs it for at most so many instructions."""
        return _run(self._machine.talc_run(text, len(text), fuel))

    def guest(self, text: bytes) -> "Guest":
        """Checks the text, and loads it to be run in slices."""
        return Guest(self._machine, text)

    # memory

    def bound(self, size: Optional[int]) -> None:
        """From now on calls of this thread hold at most so many bytes; None for no bound."""
        self._machine.talc_heap_bound(c.c_size_t(-1).value if size is None else size)

    def held(self) -> int:
        """How many bytes the guests of this thread hold."""
        return self._machine.talc_heap_held()

    # source texts

    def compile(self, text: bytes, registers: int = 0) -> bytes:
        """The assembly text; `registers` is 0 for as many as it takes, else 8 or more."""
        return self._make("talc_compile", text, _U64(registers))[0]

    def typeof(self, text: bytes) -> bytes:
        return self._make("talc_typeof", text)[0]

    def eval(self, text: bytes, turns: int) -> "tuple[bool, bytes]":
        """Whether it ended within so many turns, and the line that says with what."""
        line, status = self._make("talc_eval", text, _U64(turns))
        return status == DONE, line

    def show(self, text: bytes, form: str) -> bytes:
        """One of FORMS."""
        number = FORMS.index(form) if form in FORMS else len(FORMS)
        return self._make("talc_show", text, _U32(number))[0]

    def explain(self, text: bytes) -> bytes:
        """A page for people on the first fault of a text of either kind."""
        return self._make("talc_explain", text)[0]

    def _make(self, name, text, *number):
        call = getattr(self._compiler or self._open(), name)
        room = c.create_string_buffer(4 * len(text) + 256)
        made = call(text, len(text), *number, room, len(room))
        if made.status == SMALL:
            room = c.create_string_buffer(made.length)
            made = call(text, len(text), *number, room, len(room))
        if _taken(made).status == EMPTY:
            raise Usage(name)
        return room.raw[:made.length], made.status

    def _open(self):
        library = _loaded("libtalc_c.so")
        self._declare(library, "talc_compiler_version", _U32)
        for name, *number in (("talc_compile", _U64), ("talc_typeof",), ("talc_eval", _U64), ("talc_show", _U32),
                              ("talc_explain",)):
            self._declare(library, name, _Made, _TEXT, _SIZE, *number, _TEXT, _SIZE)
        self._same(library.talc_compiler_version())
        self._compiler = library
        return library


def _run(answer):
    if _taken(answer).status == EMPTY:
        raise NoProgram
    return Run(answer.value if answer.status == DONE else None, answer.made)


class Guest:
    """A program that is checked and loaded once, and run a slice at a time."""

    def __init__(self, machine, text: bytes):
        self._machine = machine
        self._room = (_U64 * (machine.talc_guest_size() // 8 + 1))()
        self._at = c.addressof(self._room)
        machine.talc_guest_init(self._at)
        _taken(machine.talc_guest_load(self._at, text, len(text)))

    def run(self, fuel: int) -> Run:
        """Runs on for at most so many instructions: run(a) and then run(b) is as run(a + b)."""
        return _run(self._machine.talc_guest_run(self._at, fuel))

    def reserve(self, tuples: int, fields: int) -> None:
        """Takes memory in advance: for so many tuples, and so many fields of all of them together."""
        self._has(self._machine.talc_guest_reserve(self._at, tuples, fields))

    def collect(self) -> None:
        """Drops the tuples that the guest cannot reach any more."""
        self._has(self._machine.talc_guest_collect(self._at))

    def within(self, tuples: int, fields: int) -> None:
        """From now on never more than so many tuples are kept, nor more fields of all of them together: where a run would
        keep more, it raises OutOfMemory, and goes on under a larger cap."""
        self._has(self._machine.talc_guest_within(self._at, tuples, fields))

    def kept(self) -> int:
        """How many tuples are kept."""
        return self._machine.talc_guest_kept(self._at)

    def reg(self, number: int) -> "tuple[str, int]":
        """The kind of a register's word, and the integer, or the number of the tuple or block."""
        return self._shown(self._machine.talc_guest_reg(self._at, number))

    def field(self, tuple_number: int, field: int) -> "tuple[str, int]":
        """The same of a field, from 0, of the tuple of this number."""
        return self._shown(self._machine.talc_guest_field(self._at, tuple_number, field))

    def fields(self, tuple_number: int) -> "list[tuple[str, int]]":
        """The words of the tuple's fields, up to the first that has none."""
        words = []
        while (word := self.field(tuple_number, len(words)))[0] != NONE:
            words.append(word)
        return words

    def place(self) -> "tuple[int, int]":
        """The block and the instruction in it, from 0."""
        place = self._machine.talc_guest_place(self._at)
        self._has(place)
        return place.block, place.index

    def clear(self) -> None:
        """Gives back what the guest holds. It is then empty."""
        self._machine.talc_guest_clear(self._at)

    @staticmethod
    def _shown(word):
        return (NONE, INT, TUPLE, BLOCK)[word.kind], word.value if word.kind == 1 else word.number

    @staticmethod
    def _has(answer):
        if answer.status == EMPTY:
            raise NoProgram
        if answer.status == MEMORY:
            raise OutOfMemory

    def __enter__(self):
        return self

    def __exit__(self, *_):
        self.clear()

    def __del__(self):
        if hasattr(self, "_at"):
            self.clear()
