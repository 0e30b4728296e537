-- Division of numbers at 0 or above by numbers above 0: the divisor is doubled while it fits, and on the way back each
-- of its doubles is taken away where it fits. 1000000007 by 31 is 32258064, and 23 remain: 3225806423.
let negative = fix negative(n:int):int.
  let clear = fix clear(power:int):<int, int>.
    if0(power, <n, 1>,
      let lower = clear (power + power) in
      let bits = #1 lower in
      let unit = #2 lower in
      <if0(bits * power, bits, bits - unit), unit + unit>) in
  if0(#1 (clear 2), 0, 1) in
let divide = fix divide(p:<int, int>):<int, int>.
  let number = #1 p in
  let take = fix take(by:int):<int, int>.
    if0(negative (number - by),
      let more = take (by + by) in
      let twice = #1 more + #1 more in
      let rest = #2 more in
      if0(negative (rest - by), <twice + 1, rest - by>, <twice, rest>),
      <0, number>) in
  take (#2 p) in
let quotient = fix quotient(p:<int, int>):int. #1 (divide p) in
let remainder = fix remainder(p:<int, int>):int. #2 (divide p) in
quotient <1000000007, 31> * 100 + remainder <1000000007, 31>
