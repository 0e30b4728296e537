-- 1.4  Write Ackermann's function of m and n: n + 1 where m is 0; else for n = 0 that of m - 1 and 1; and else that of
-- m - 1 and of what the function gives for m and n - 1.
-- case: ackermann <2, 3> = 9
-- case: ackermann <0, 5> = 6
-- case: ackermann <1, 0> = 2
-- case: ackermann <3, 3> = 61
let ackermann = fix ackermann(p:<int, int>):int.
  -- an expression of the type int
  in
ackermann <2, 3> -- input
