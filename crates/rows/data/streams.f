-- Streams without end: a state that nobody sees, the number that it shows, and the state after it.
-- The tenth number, from 0 on, of the squares and the Fibonacci numbers added up one by one: 100 + 55.
let numbers = pack[int,
    <0,
     fix show(n:int):int. n,
     fix next(n:int):int. n + 1>]
  as some s. <s, s -> int, s -> s> in
let fibonacci = pack[<int, int>,
    <<0, 1>,
     fix show(p:<int, int>):int. #1 p,
     fix next(p:<int, int>):<int, int>. <#2 p, #1 p + #2 p>>]
  as some s. <s, s -> int, s -> s> in

-- Each number of a stream through a function.
let map = fix map(p:<int -> int, some s. <s, s -> int, s -> s>>):some s. <s, s -> int, s -> s>.
  open [s, stream] = #2 p in
  pack[s,
    <#1 stream,
     fix show(now:s):int. (#1 p) ((#2 stream) now),
     #3 stream>]
  as some s. <s, s -> int, s -> s> in

-- Two streams added up: the state is the pair of their states.
let add = fix add(p:<some s. <s, s -> int, s -> s>, some s. <s, s -> int, s -> s>>):some s. <s, s -> int, s -> s>.
  open [s, left] = #1 p in
  open [t, right] = #2 p in
  pack[<s, t>,
    <<#1 left, #1 right>,
     fix show(now:<s, t>):int. (#2 left) (#1 now) + (#2 right) (#2 now),
     fix next(now:<s, t>):<s, t>. <(#3 left) (#1 now), (#3 right) (#2 now)>>]
  as some s. <s, s -> int, s -> s> in

let at = fix at(p:<int, some s. <s, s -> int, s -> s>>):int.
  open [s, stream] = #2 p in
  let go = fix go(q:<int, s>):int.
    if0(#1 q, (#2 stream) (#2 q), go <#1 q - 1, (#3 stream) (#2 q)>) in
  go <#1 p, #1 stream> in

let square = fix square(n:int):int. n * n in
at <10, add <map <square, numbers>, fibonacci>>
