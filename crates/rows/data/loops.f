-- Loops as functions: `for` does a step for each number from 1 on, `until` one as long as a test is not 0. What goes
-- round is of any type. The squares of 1 to 10 add up to 385, and 42 is the first with the square 1764: 385042.
let for = gen s. fix for(p:<int, <int, s> -> s>):s -> s.
  fix from(start:s):s.
    let go = fix go(q:<int, s>):s. if0(#1 q - #1 p, #2 q, go <#1 q + 1, (#2 p) <#1 q + 1, #2 q>>) in
    go <0, start> in
let until = gen s. fix until(p:<s -> int, s -> s>):s -> s.
  fix go(now:s):s. if0((#1 p) now, now, go ((#2 p) now)) in
let squares = for[int] <10, fix add(p:<int, int>):int. #2 p + #1 p * #1 p> 0 in
let root = until[int] <fix test(n:int):int. n * n - 1764, fix next(n:int):int. n + 1> 0 in
squares * 1000 + root
