-- 5.2  Write `exchange`: what two cells of any type hold, the one afterwards holds of the other.
-- case: let done = exchange[int] <a, b> in !a * 10 + !b = 43
-- case: let done = exchange[int] <a, a> in !a * 10 + !b = 34
-- case: let done = exchange[int -> int] <f, g> in (!f) 5 = 25
let a = ref 3 in
let b = ref 4 in
let f = ref (fix next(n:int):int. n + 1) in
let g = ref (fix square(n:int):int. n * n) in
let exchange = gen t. fix exchange(p:<ref t, ref t>):<>.
  -- an expression of the type <>
  in
let done = exchange[int] <a, b> in !a * 10 + !b -- input
