-- 3.4  Write `digits`: the elements of a list as the digits of a number, the first one highest. A fold begins with the
-- last element: let it make a function, from the number so far to the number in the end.
-- case: digits (put <1, put <2, put <3, empty>>>) = 123
-- case: digits empty = 0
-- case: digits (put <4, put <0, empty>>) = 40
let empty = gen r. fix fold(add:<int, r> -> r):r -> r. fix from(start:r):r. start in
let put = fix put(p:<int, all r. (<int, r> -> r) -> r -> r>):all r. (<int, r> -> r) -> r -> r.
  gen r. fix fold(add:<int, r> -> r):r -> r. fix from(start:r):r. add <#1 p, (#2 p)[r] add start> in
let digits = fix digits(list:all r. (<int, r> -> r) -> r -> r):int.
  list[int -> int]
    (fix each(e:<int, int -> int>):int -> int. fix on(so_far:int):int. (#2 e) (so_far * 10 + #1 e))
    (fix end(so_far:int):int. so_far) 0 in
digits (put <1, put <2, put <3, empty>>>) -- input
