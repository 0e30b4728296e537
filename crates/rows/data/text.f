-- Texts: a length, and a function from places to letters, which are the numbers from 1 to 26. Of `banana` it gives the
-- length 6, how often `an` stands in it, 2, and 1 as it is the same backwards without its first letter: 621.
let letter = fix letter(code:int):<int, int -> int>. <1, fix at(place:int):int. code> in
let join = fix join(p:<<int, int -> int>, <int, int -> int>>):<int, int -> int>.
  let length = #1 (#1 p) in
  let where = fix where(s:<int, int>):int.
    if0(#1 s - length, (#2 (#2 p)) (#2 s - length),
      if0(#1 s - #2 s, (#2 (#1 p)) (#2 s), where <#1 s + 1, #2 s>)) in
  <length + #1 (#2 p), fix at(place:int):int. where <0, place>> in
let from = fix from(p:<int, <int, int -> int>>):<int, int -> int>.
  <#1 (#2 p) - #1 p, fix at(place:int):int. (#2 (#2 p)) (place + #1 p)> in
let backwards = fix backwards(t:<int, int -> int>):<int, int -> int>.
  <#1 t, fix at(place:int):int. (#2 t) (#1 t - 1 - place)> in

-- 1 where a text begins with another one; it has to be as long at least.
let begins = fix begins(p:<<int, int -> int>, <int, int -> int>>):int.
  let go = fix go(left:int):int.
    if0(left, 1, if0((#2 (#1 p)) (left - 1) - (#2 (#2 p)) (left - 1), go (left - 1), 0)) in
  go (#1 (#2 p)) in
-- How often a text stands in another one.
let count = fix count(p:<<int, int -> int>, <int, int -> int>>):int.
  if0(#1 (#1 p) - #1 (#2 p), begins p, begins p + count <from <1, #1 p>, #2 p>) in

let a = letter 1 in
let b = letter 2 in
let n = letter 14 in
let an = join <a, n> in
let banana = join <b, join <an, join <an, a>>> in
let rest = from <1, banana> in
#1 banana * 100 + count <banana, an> * 10 + begins <rest, backwards rest>
