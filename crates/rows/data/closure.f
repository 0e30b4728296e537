-- A closure: the inner function keeps x after the outer one has returned.
((fix add(x:int):int -> int. fix to(y:int):int. x + y) 3) 4
