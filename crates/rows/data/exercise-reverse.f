-- 3.4  Write `digits`: the elements of a list as the digits of a number, the first one highest. A fold begins with the
-- last element: let it make a function, from the number so far to the number in the end.
-- case: digits (put <1, put <2, put <3, empty>>>) = 123
-- case: digits empty = 0
-- case: digits (put <4, put <0, empty>>) = 40
let empty = gen r. fix fold(add:<int, r> -> r):r -> r. fix from(start:r):r. start in
let put = fix put(p:<int, all r. (<int, r> -> r) -> r -> r>):all r. (<int, r> -> r) -> r -> r.
  gen r. fix fold(add:<int, r> -> r):r -> r. fix from(start:r):r. add <#1 p, (#2 p)[r] add start> in
let digits = fix digits(list:all r. (<int, r> -> r) -> r -> r):int.
  -- an expression of the type int, by `list[int -> int]`
  in
digits (put <1, put <2, put <3, empty>>>) -- input
