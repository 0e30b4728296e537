-- A call that never returns.
(fix f(x:int):int. f x) 0
