-- 2.4  A numeral n is what does a function n times, whatever the type. Write `plus` of two numerals, and `times`.
-- case: show (plus <two, three>) * 10 + show (times <two, three>) = 56
-- case: show (plus <three, three>) = 6
-- case: show (times <three, times <two, three>>) = 18
let two = gen a. fix two(f:a -> a):a -> a. fix on(x:a):a. f (f x) in
let three = gen a. fix three(f:a -> a):a -> a. fix on(x:a):a. f (f (f x)) in
let show = fix show(n:all a. (a -> a) -> a -> a):int. n[int] (fix next(x:int):int. x + 1) 0 in
let plus = fix plus(p:<all a. (a -> a) -> a -> a, all a. (a -> a) -> a -> a>):all a. (a -> a) -> a -> a.
  gen a. fix sum(f:a -> a):a -> a. fix on(x:a):a. (#1 p)[a] f ((#2 p)[a] f x) in
let times = fix times(p:<all a. (a -> a) -> a -> a, all a. (a -> a) -> a -> a>):all a. (a -> a) -> a -> a.
  gen a. fix product(f:a -> a):a -> a. (#1 p)[a] ((#2 p)[a] f) in
show (plus <two, three>) * 10 + show (times <two, three>) -- input
