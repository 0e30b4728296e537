-- Refused: the type that a package hides would be seen outside of the `open` that gave it its name.
open [hidden, value] = pack[int, 3] as some a. a in value
