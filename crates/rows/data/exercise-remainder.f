-- 1.3  Write `remainder`: what is left of a where b is taken away as often as it fits. There is no order: count a down
-- and another number up, which starts anew each time that it comes to b.
-- case: remainder <17, 5> = 2
-- case: remainder <4, 4> = 0
-- case: remainder <3, 8> = 3
-- case: remainder <9, 1> = 0
let remainder = fix remainder(p:<int, int>):int.
  -- an expression of the type int
  in
remainder <17, 5> -- input
