-- The tenth Fibonacci number, by two calls in one sum.
(fix fib(n:int):int. if0(n, 0, if0(n - 1, 1, fib(n - 1) + fib(n - 2)))) 10
