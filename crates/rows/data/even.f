-- A mutual recursion through a tuple: 1 where the number is even.
(#1 ((fix both(u:<>):<int -> int, int -> int>.
        <fix even(n:int):int. if0(n, 1, (#2 (both u)) (n - 1)),
         fix odd(n:int):int. if0(n, 0, (#1 (both u)) (n - 1))>) <>)) 10
