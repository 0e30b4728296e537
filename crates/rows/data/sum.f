-- The sum of the numbers from 1 to 100, by a function that calls itself.
let sum = fix sum(n:int):int. if0(n, 0, n + sum (n - 1)) in
sum 100
