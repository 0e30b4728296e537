-- Options: a number that may be absent is what it does with a value, for nothing, and a function, for a number. The
-- root of 1764 is 42, and 1765 has none, for which 0 is put: 4200.
let nothing = gen r. fix nothing(p:<r, int -> r>):r. #1 p in
let just = fix just(n:int):all r. <r, int -> r> -> r. gen r. fix just(p:<r, int -> r>):r. (#2 p) n in
let or = fix or(p:<all r. <r, int -> r> -> r, int>):int.
  (#1 p)[int] <#2 p, fix it(n:int):int. n> in
-- The number up to a hundred with this square.
let root = fix root(square:int):all r. <r, int -> r> -> r.
  let try = fix try(n:int):all r. <r, int -> r> -> r.
    if0(n * n - square, just n, if0(n - 100, nothing, try (n + 1))) in
  try 0 in
or <root 1764, 0> * 100 + or <root 1765, 0>
