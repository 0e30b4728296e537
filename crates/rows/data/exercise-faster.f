-- 4.3  Write `faster`: of any counter it makes one that goes two steps at a time. Nobody knows what the counter is made
-- of; the new one may have the same hidden type.
-- case: third (faster number) = 6
-- case: third (faster (faster number)) = 12
let number = pack[int, <0, fix next(n:int):int. n + 1, fix read(n:int):int. n>] as some c. <c, c -> c, c -> int> in
let third = fix third(counter:some c. <c, c -> c, c -> int>):int.
  open [c, m] = counter in (#3 m) ((#2 m) ((#2 m) ((#2 m) (#1 m)))) in
let faster = fix faster(counter:some c. <c, c -> c, c -> int>):some c. <c, c -> c, c -> int>.
  -- a package
  in
third (faster number) -- input
