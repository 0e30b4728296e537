-- 4.4  Write sets of integers as a package: the empty set; a set with one number more; and 1 where a number is in a
-- set, else 0. What a set is made of is yours to choose.
-- case: test 3 * 100 + test 5 * 10 + test 4 = 110
-- case: test 0 = 0
let sets =
  -- a package of the type some s. <s, <int, s> -> s, <int, s> -> int>
  in
let test = fix test(n:int):int.
  open [set, m] = sets in
  let with = #2 m in
  (#3 m) <n, with <3, with <5, with <3, #1 m>>>> in
test 3 * 100 + test 5 * 10 + test 4 -- input
