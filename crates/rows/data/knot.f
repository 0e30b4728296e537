-- Recursion through a reference: the cell holds a function that is never called, and then one that calls what the cell
-- holds, and so itself. `fix` is used for functions alone, and none of them names itself.
let factorial = ref (fix none(n:int):int. 0) in
let tied = factorial := (fix step(n:int):int. if0(n, 1, n * (!factorial) (n - 1))) in
(!factorial) 5
