-- 5.1  Write `counter`: each call makes a counter of its own, a function that gives 1, 2, 3 and so on, call by call.
-- case: let a = counter <> in let b = counter <> in a <> * 1000 + a <> * 100 + b <> * 10 + a <> = 1213
-- case: counter <> <> = 1
let counter = fix counter(u:<>):<> -> int.
  -- a function, behind a `let` for its cell
  in
let a = counter <> in let b = counter <> in a <> * 1000 + a <> * 100 + b <> * 10 + a <> -- input
