-- A longer program, name by name: from `+`, `-`, `*` and `if0` to division, Euclid's algorithm and fractions.
-- It shows the first three digits of (1/6 + 3/10) * 5/7, which is a third.

-- Division: the dividend is counted down, and beside it another number up to the divisor and round again.
let divide = fix divide(p:<int, int>):<int, int>.
  let divisor = #2 p in
  let count = fix count(s:<int, int, int>):<int, int>.
    let left = #1 s in
    let whole = #2 s in
    let rest = #3 s in
    if0(left,
      <whole, rest>,
      if0(rest + 1 - divisor,
        count <left - 1, whole + 1, 0>,
        count <left - 1, whole, rest + 1>)) in
  count <#1 p, 0, 0> in
let quotient = fix quotient(p:<int, int>):int. #1 (divide p) in
let remainder = fix remainder(p:<int, int>):int. #2 (divide p) in

-- The greatest common divisor.
let common = fix common(p:<int, int>):int.
  let a = #1 p in
  let b = #2 p in
  if0(b, a, common <b, remainder <a, b>>) in

-- Fractions: a numerator and a denominator, without a common divisor.
let lowest = fix lowest(f:<int, int>):<int, int>.
  let by = common f in
  <quotient <#1 f, by>, quotient <#2 f, by>> in
let plus = fix plus(p:<<int, int>, <int, int>>):<int, int>.
  let f = #1 p in
  let g = #2 p in
  lowest <#1 f * #2 g + #1 g * #2 f, #2 f * #2 g> in
let times = fix times(p:<<int, int>, <int, int>>):<int, int>.
  let f = #1 p in
  let g = #2 p in
  lowest <#1 f * #1 g, #2 f * #2 g> in

-- The digits behind the point, as many as the last part says, after those in the second.
let expand = fix expand(s:<<int, int>, int, int>):int.
  let f = #1 s in
  let divided = divide <10 * #1 f, #2 f> in
  let digits = 10 * #2 s + #1 divided in
  let more = #3 s - 1 in
  if0(more, digits, expand <<#2 divided, #2 f>, digits, more>) in

let sum = plus <<1, 6>, <3, 10>> in
let product = times <sum, <5, 7>> in
expand <product, 0, 3>
