-- 3.2  Write `keep`: the list of those elements for which a function does not give 0.
-- case: sum (keep <fix not5(n:int):int. n - 5, put <5, put <6, put <5, put <7, empty>>>>>) = 13
-- case: sum (keep <fix none(n:int):int. 0, put <5, put <6, empty>>>) = 0
-- case: sum (keep <fix all_of(n:int):int. 1, put <5, put <6, empty>>>) = 11
let empty = gen r. fix fold(add:<int, r> -> r):r -> r. fix from(start:r):r. start in
let put = fix put(p:<int, all r. (<int, r> -> r) -> r -> r>):all r. (<int, r> -> r) -> r -> r.
  gen r. fix fold(add:<int, r> -> r):r -> r. fix from(start:r):r. add <#1 p, (#2 p)[r] add start> in
let sum = fix sum(list:all r. (<int, r> -> r) -> r -> r):int. list[int] (fix add(e:<int, int>):int. #1 e + #2 e) 0 in
let keep = fix keep(p:<int -> int, all r. (<int, r> -> r) -> r -> r>):all r. (<int, r> -> r) -> r -> r.
  -- a list
  in
sum (keep <fix not5(n:int):int. n - 5, put <5, put <6, put <5, put <7, empty>>>>>) -- input
