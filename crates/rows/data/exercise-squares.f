-- 1.2  Write `squares`: `squares <a, b>` is the sum of the squares of the numbers from a on and below b.
-- case: squares <1, 4> = 14
-- case: squares <5, 6> = 25
-- case: squares <5, 5> = 0
-- case: squares <~2, 3> = 10
let squares = fix squares(p:<int, int>):int.
  -- an expression of the type int
  in
squares <1, 4> -- input
