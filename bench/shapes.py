"""Sources of about n nodes, by their shape."""


def ones(n):
    return " + ".join(["1"] * ((n + 1) // 2))


def calls(n):
    """Nested calls of one function, which has a name; no more than 40 of them in each other, added up."""
    nest = "f (" * 39 + "f 0" + ")" * 39
    return f"(fix g(f:int -> int):int. {' + '.join([nest] * max(1, n // 82))}) (fix h(x:int):int. x + 1)"


def branches(n):
    return " + ".join(["if0(0, 1, 2)"] * ((n + 1) // 5))


def functions(n):
    """Functions in a row, each called where it stands."""
    return " + ".join(["(fix f(x:int):int. x) 1"] * ((n + 1) // 5))


def lets(n):
    return "let x = 0 in " + "let x = x + 1 in " * (n // 4 - 1) + "x"


def packs(n):
    """A package in a package in a package."""
    around = "let x = pack[some a. a, x] as some a. a in " * (n // 3 - 3)
    return "let x = pack[int, 1] as some a. a in " + around + "#1 <2, x>"


def opens(n):
    return "open [a, x] = pack[int, 1] as some b. b in " * (n // 3 - 1) + "1"


def cells(n):
    return "let c = ref 0 in " + "let u = c := !c + 1 in " * (n // 7 - 1) + "!c"


def called_lets(n):
    """So many calls in a row, each of which is named: each has all that follows in its continuation."""
    return "let f = fix f(x:int):int. x + 1 in let x = 0 in " + "let x = f x in " * (n // 4 - 3) + "x"
