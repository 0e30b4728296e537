-- 3.1  A list is its fold. Write `length`.
-- case: length (put <7, put <8, put <9, empty>>>) = 3
-- case: length empty = 0
-- case: length (put <0, empty>) = 1
let empty = gen r. fix fold(add:<int, r> -> r):r -> r. fix from(start:r):r. start in
let put = fix put(p:<int, all r. (<int, r> -> r) -> r -> r>):all r. (<int, r> -> r) -> r -> r.
  gen r. fix fold(add:<int, r> -> r):r -> r. fix from(start:r):r. add <#1 p, (#2 p)[r] add start> in
let length = fix length(list:all r. (<int, r> -> r) -> r -> r):int.
  list[int] (fix count(e:<int, int>):int. 1 + #2 e) 0 in
length (put <7, put <8, put <9, empty>>>) -- input
