-- A function that does another twice, whatever the type: at integers, at pairs, and at functions.
let twice = gen a. fix twice(f:a -> a):a -> a. fix on(x:a):a. f (f x) in
let next = fix next(n:int):int. n + 1 in
let turn = fix turn(p:<int, int>):<int, int>. <#2 p, #1 p + #2 p> in
let five = #2 (twice[<int, int>] turn <1, 2>) in
twice[int -> int] (twice[int]) next 0 * 10 + five
