-- 2.2  Write a term of this type: of a function that takes two arguments one by one it makes one that takes them the
-- other way round.
-- type: all t0. all t1. all t2. (t0 -> t1 -> t2) -> t1 -> t0 -> t2
-- case: it[int][int][int] (fix minus(a:int):int -> int. fix from(b:int):int. a - b) 8 50 = 42
gen a. gen b. gen c.
  -- a function
