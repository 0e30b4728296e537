-- 2.4  A numeral n is what does a function n times, whatever the type. Write `plus` of two numerals, and `times`.
-- case: show (plus <two, three>) * 10 + show (times <two, three>) = 56
-- case: show (plus <three, three>) = 6
-- case: show (times <three, times <two, three>>) = 18
let two = gen a. fix two(f:a -> a):a -> a. fix on(x:a):a. f (f x) in
let three = gen a. fix three(f:a -> a):a -> a. fix on(x:a):a. f (f (f x)) in
let show = fix show(n:all a. (a -> a) -> a -> a):int. n[int] (fix next(x:int):int. x + 1) 0 in
let plus = fix plus(p:<all a. (a -> a) -> a -> a, all a. (a -> a) -> a -> a>):all a. (a -> a) -> a -> a.
  -- a numeral
  in
let times = fix times(p:<all a. (a -> a) -> a -> a, all a. (a -> a) -> a -> a>):all a. (a -> a) -> a -> a.
  -- a numeral
  in
show (plus <two, three>) * 10 + show (times <two, three>) -- input
