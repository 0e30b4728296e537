-- what is made of it fits into no small room
(fix f(n:int):int. if0(n, 1, n * f(n - 1))) 6 + (fix g(n:int):int. if0(n, 0, n + g(n - 1))) 10
