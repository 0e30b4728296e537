-- 6.3  Mend this program, in which three things are wrong, one after the other: `explain` shows the first one. It is
-- meant to do a function to both fields of a pair, and to give the difference of the fields.
-- case: difference (each <fix square(n:int):int. n * n, <5, 3>>) = 16
-- case: difference (each <fix same(n:int):int. n, <5, 3>>) = 2
let each = fix each(p:<int -> int, <int, int>>):<int, int>.
  let f = #1 p in
  let pair = #2 p in
  <f (#1 pair), f (#2 pair)> in
let difference = fix difference(p:<int, int>):int. #1 p - #2 p in
difference (each <fix square(n:int):int. n * n, <5, 3>>) -- input
