-- Mutual recursion through a reference: `even` calls what the cell holds, and that is a function which calls `even`.
let odd = ref (fix none(n:int):int. 0) in
let even = fix even(n:int):int. if0(n, 1, (!odd) (n - 1)) in
let tied = odd := (fix odd(n:int):int. if0(n, 0, even (n - 1))) in
even 10
