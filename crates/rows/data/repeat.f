-- A function that does another n times: 1 is doubled 63 times, and the last doubling wraps.
(fix repeat(n:int):(int -> int) -> int -> int.
   fix of(f:int -> int):int -> int. fix from(x:int):int. if0(n, x, f (repeat (n - 1) f x)))
   63 (fix double(x:int):int. x + x) 1
