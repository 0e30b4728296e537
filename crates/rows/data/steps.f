-- The fiftieth Fibonacci number: each step takes three numbers as one tuple, and hands three on.
let fib = fix fib(s:<int, int, int>):int.
  let left = #1 s in
  let this = #2 s in
  let next = #3 s in
  if0(left, this, fib <left - 1, next, this + next>) in
fib <50, 0, 1>
