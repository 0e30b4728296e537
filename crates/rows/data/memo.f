-- A memo by a reference: the cell holds a function from numbers to what is known of them, so that the thirtieth
-- Fibonacci number takes some thirty sums.
let memo = ref (fix none(n:int):int. 0) in
let fib = fix fib(n:int):int.
  if0(n, 0, if0(n - 1, 1,
    let known = (!memo) n in
    if0(known,
      let made = fib (n - 1) + fib (n - 2) in
      let before = !memo in
      let done = memo := (fix find(m:int):int. if0(m - n, made, before m)) in
      made,
      known))) in
fib 30
