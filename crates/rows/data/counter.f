-- A package with two implementations: a counter is an integer in the one and a function in the other, and the client,
-- which does not see which, counts to 3 with either.
let use = fix use(counter:some c. <c, c -> c, c -> int>):int.
  open [c, m] = counter in
  let start = #1 m in
  let next = #2 m in
  let read = #3 m in
  read (next (next (next start))) in
let number = pack[int,
    <0,
     fix next(n:int):int. n + 1,
     fix read(n:int):int. n>]
  as some c. <c, c -> c, c -> int> in
let adder = pack[int -> int,
    <fix none(x:int):int. x,
     fix next(f:int -> int):int -> int. fix more(x:int):int. f x + 1,
     fix read(f:int -> int):int. f 0>]
  as some c. <c, c -> c, c -> int> in
use number * 10 + use adder
