-- Order: what is below 0 has the highest bit. The lower bits are taken away, the lowest first: where those below it are
-- gone, a bit times the power of two that makes it the highest is 0 where it is not there. It gives 10011.
let negative = fix negative(n:int):int.
  let clear = fix clear(power:int):<int, int>.
    if0(power, <n, 1>,
      let lower = clear (power + power) in
      let bits = #1 lower in
      let unit = #2 lower in
      <if0(bits * power, bits, bits - unit), unit + unit>) in
  if0(#1 (clear 2), 0, 1) in
let less = fix less(p:<int, int>):int.
  let a = negative (#1 p) in
  let b = negative (#2 p) in
  if0(a - b, negative (#1 p - #2 p), a) in
let at_most = fix at_most(p:<int, int>):int. 1 - less <#2 p, #1 p> in
less <3, 7> * 10000 + less <7, 3> * 1000 + less <7, 7> * 100 + at_most <7, 7> * 10
  + less <~9223372036854775808, 9223372036854775807>
