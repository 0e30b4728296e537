-- The factorial of 5, by a recursive function.
(fix f(n:int):int. if0(n, 1, n * f(n - 1))) 5
