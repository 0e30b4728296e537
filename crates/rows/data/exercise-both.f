-- 2.3  A choice is what takes two values of any type and gives one of them: `yes` the first, `no` the second.
-- Write `both`: yes where two choices are yes, and else no. Do it by their types alone, without an integer.
-- case: show (both <yes, yes>) = 1
-- case: show (both <yes, no>) = 0
-- case: show (both <no, yes>) = 0
-- case: show (both <no, no>) = 0
let yes = gen a. fix yes(p:<a, a>):a. #1 p in
let no = gen a. fix no(p:<a, a>):a. #2 p in
let show = fix show(choice:all a. <a, a> -> a):int. choice[int] <1, 0> in
let both = fix both(p:<all a. <a, a> -> a, all a. <a, a> -> a>):all a. <a, a> -> a.
  -- a choice
  in
show (both <yes, yes>) -- input
