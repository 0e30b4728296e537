-- 5.3  Tie the knot: put a function into the cell that calls what the cell holds, and no other by its own name, so that
-- the cell then holds the function from n to the Fibonacci number n.
-- case: (!fibonacci) 10 = 55
-- case: (!fibonacci) 0 = 0
-- case: (!fibonacci) 1 = 1
let fibonacci = ref (fix none(n:int):int. 0) in
let tied =
  -- an assignment
  in
(!fibonacci) 10 -- input
