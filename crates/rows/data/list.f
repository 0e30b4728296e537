-- A list of integers as its fold. It is given what to do with an element beside the result for the rest, and the result
-- for the empty list, whatever type the results have. Here is the sum of the squares of 1, 2 and 3.
let empty = gen r. fix fold(add:<int, r> -> r):r -> r. fix from(start:r):r. start in
let put = fix put(p:<int, all r. (<int, r> -> r) -> r -> r>):all r. (<int, r> -> r) -> r -> r.
  gen r. fix fold(add:<int, r> -> r):r -> r. fix from(start:r):r. add <#1 p, (#2 p)[r] add start> in
let map = fix map(p:<int -> int, all r. (<int, r> -> r) -> r -> r>):all r. (<int, r> -> r) -> r -> r.
  gen r. fix fold(add:<int, r> -> r):r -> r. (#2 p)[r] (fix each(e:<int, r>):r. add <(#1 p) (#1 e), #2 e>) in
let sum = fix sum(list:all r. (<int, r> -> r) -> r -> r):int.
  list[int] (fix plus(e:<int, int>):int. #1 e + #2 e) 0 in
let square = fix square(n:int):int. n * n in
sum (map <square, put <1, put <2, put <3, empty>>>>)
