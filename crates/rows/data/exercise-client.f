-- 4.2  Write `third`: it opens a counter, goes on by three steps from its start, and gives what is read there. The type
-- that is hidden has no name outside of the `open`: an integer must come out of it.
-- case: third number * 100 + third twos = 306
-- case: third twos = 6
let number = pack[int, <0, fix next(n:int):int. n + 1, fix read(n:int):int. n>] as some c. <c, c -> c, c -> int> in
let twos = pack[<int, int>,
    <<0, 2>, fix next(p:<int, int>):<int, int>. <#1 p + #2 p, #2 p>, fix read(p:<int, int>):int. #1 p>]
  as some c. <c, c -> c, c -> int> in
let third = fix third(counter:some c. <c, c -> c, c -> int>):int.
  -- an expression of the type int, by `open`
  in
third number * 100 + third twos -- input
