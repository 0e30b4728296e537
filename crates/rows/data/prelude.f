-- A prelude: `let`s to put in front of a program of one's own, in place of the test at the end. Booleans are 1 and 0.
-- What it can do with numbers holds of all 64 bits; `absolute` and division leave out the least number alone.

-- Booleans; and loops over any type: a step n times, one for each number from 1 to n, and one until a test is 0.
let not = fix not(a:int):int. 1 - a in
let and = fix and(p:<int, int>):int. #1 p * #2 p in
let or = fix or(p:<int, int>):int. #1 p + #2 p - #1 p * #2 p in
let equal = fix equal(p:<int, int>):int. if0(#1 p - #2 p, 1, 0) in
let repeat = gen s. fix repeat(p:<int, s -> s>):s -> s. fix from(start:s):s.
  if0(#1 p, start, repeat <#1 p - 1, #2 p> ((#2 p) start)) in
let for = gen s. fix for(p:<int, <int, s> -> s>):s -> s. fix from(start:s):s.
  if0(#1 p, start, (#2 p) <#1 p, for <#1 p - 1, #2 p> start>) in
let until = gen s. fix until(p:<s -> int, s -> s>):s -> s. fix go(now:s):s.
  if0((#1 p) now, now, go ((#2 p) now)) in

-- Order.
let negative = fix negative(n:int):int.
  let clear = fix clear(power:int):<int, int>.
    if0(power, <n, 1>,
      let lower = clear (power + power) in
      <if0(#1 lower * power, #1 lower, #1 lower - #2 lower), #2 lower + #2 lower>) in
  if0(#1 (clear 2), 0, 1) in
let less = fix less(p:<int, int>):int.
  let a = negative (#1 p) in
  if0(a - negative (#2 p), negative (#1 p - #2 p), a) in
let at_most = fix at_most(p:<int, int>):int. not (less <#2 p, #1 p>) in
let smaller = fix smaller(p:<int, int>):int. if0(less p, #2 p, #1 p) in
let greater = fix greater(p:<int, int>):int. if0(less p, #1 p, #2 p) in
let absolute = fix absolute(n:int):int. if0(negative n, n, 0 - n) in

-- Division: a quotient that is rounded towards 0, and a remainder with the sign of the number that is divided.
let divide = fix divide(p:<int, int>):<int, int>.
  let number = absolute (#1 p) in
  let take = fix take(by:int):<int, int>.
    if0(negative (number - by),
      let more = take (by + by) in
      let twice = #1 more + #1 more in
      if0(negative (#2 more - by), <twice + 1, #2 more - by>, <twice, #2 more>),
      <0, number>) in
  let parts = take (absolute (#2 p)) in
  let sign = 1 - 2 * negative (#1 p) in
  <#1 parts * sign * (1 - 2 * negative (#2 p)), #2 parts * sign> in
let quotient = fix quotient(p:<int, int>):int. #1 (divide p) in
let remainder = fix remainder(p:<int, int>):int. #2 (divide p) in
let power = fix power(p:<int, int>):int. if0(#2 p, 1, #1 p * power <#1 p, #2 p - 1>) in

-- Bits: what a function of two bits makes of two numbers, and one bit of a number, the lowest being 0.
let bitwise = fix bitwise(f:<int, int> -> int):<int, int> -> int. fix on(p:<int, int>):int.
  let go = fix go(power:int):<int, int, int, int>.
    if0(power, <#1 p, #2 p, 1, 0>,
      let lower = go (power + power) in
      let unit = #3 lower in
      let left = if0(#1 lower * power, 0, 1) in
      let right = if0(#2 lower * power, 0, 1) in
      <#1 lower - left * unit, #2 lower - right * unit, unit + unit, #4 lower + f <left, right> * unit>) in
  #4 (go 1) in
let bit = fix bit(p:<int, int>):int. negative (#1 p * power <2, 63 - #2 p>) in

-- Lists of integers: `empty`, `put`, `fold` from the last on, and `split`: 1 where there is a head, the head, the tail.
open [list, m] =
  pack[all r. <r, <int, r> -> r> -> r,
    <gen r. fix empty(f:<r, <int, r> -> r>):r. #1 f,
     fix put(p:<int, all r. <r, <int, r> -> r> -> r>):all r. <r, <int, r> -> r> -> r.
       gen r. fix put(f:<r, <int, r> -> r>):r. (#2 f) <#1 p, (#2 p)[r] f>,
     gen r. fix fold(p:<all r. <r, <int, r> -> r> -> r, r, <int, r> -> r>):r. (#1 p)[r] <#2 p, #3 p>>]
  as some list. <list, <int, list> -> list, all r. <list, r, <int, r> -> r> -> r> in
let empty = #1 m in
let put = #2 m in
let fold = #3 m in
let split = fix split(l:list):<int, int, list>.
  let parts = fold[<int, int, list, list>]
    <l, <0, 0, empty, empty>,
     fix each(e:<int, <int, int, list, list>>):<int, int, list, list>. <1, #1 e, #4 (#2 e), put <#1 e, #4 (#2 e)>>> in
  <#1 parts, #2 parts, #3 parts> in

-- The test: the greatest digit of 271828 is 8, of 6 digits; ~17 by 5 is ~3, and ~2 remain; the bits 0 and 2 of 5 are
-- set; the bits that 12 and 10 share are 8. It gives 8632118.
let digits = fix digits(n:int):list. if0(n, empty, put <remainder <n, 10>, digits (quotient <n, 10>)>) in
let list = digits 271828 in
let highest = fold[int] <list, 0, greater> in
let length = fold[int] <list, 0, fix one(e:<int, int>):int. #2 e + 1> in
let shared = bitwise and <12, 10> in
let set = bit <5, 0> * 10 + bit <5, 2> in
(highest * 10 + length) * 100000 - quotient <~17, 5> * 10000 - remainder <~17, 5> * 1000 + set * 10 + shared
