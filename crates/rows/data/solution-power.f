-- 1.1  Write `power`: `power <b, n>` is b to the power of n. To the power of 0 it is 1.
-- case: power <2, 10> = 1024
-- case: power <7, 0> = 1
-- case: power <~3, 3> = ~27
let power = fix power(p:<int, int>):int.
  if0(#2 p, 1, #1 p * power <#1 p, #2 p - 1>) in
power <2, 10> -- input
