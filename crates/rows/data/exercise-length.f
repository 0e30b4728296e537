-- 3.1  A list is its fold. Write `length`.
-- case: length (put <7, put <8, put <9, empty>>>) = 3
-- case: length empty = 0
-- case: length (put <0, empty>) = 1
let empty = gen r. fix fold(add:<int, r> -> r):r -> r. fix from(start:r):r. start in
let put = fix put(p:<int, all r. (<int, r> -> r) -> r -> r>):all r. (<int, r> -> r) -> r -> r.
  gen r. fix fold(add:<int, r> -> r):r -> r. fix from(start:r):r. add <#1 p, (#2 p)[r] add start> in
let length = fix length(list:all r. (<int, r> -> r) -> r -> r):int.
  -- an expression of the type int, by `list[int]`
  in
length (put <7, put <8, put <9, empty>>>) -- input
