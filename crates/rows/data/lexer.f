-- A lexer: signs come in one by one, digits make up numbers, and each number and sign is a token. What is known so far
-- is a tuple, and each kind of sign changes it. `12 + 34 * 2 + 5` has 7 tokens and the value 85; it gives 785.
let plus = 10 in
let times = 11 in
let gap = 12 in
let end = 13 in
let then = fix then(p:<int, int -> int>):int -> int.
  fix at(place:int):int. if0(place, #1 p, (#2 p) (place - 1)) in
let spaced = fix spaced(p:<int, int -> int>):int -> int. then <gap, then <#1 p, then <gap, #2 p>>> in
let text = then <1, then <2, spaced <plus, then <3, then <4, spaced <times, then <2,
  spaced <plus, then <5, fix rest(place:int):int. end>>>>>>>>> in

-- The tokens so far; 1 within a number; the sum, the product and the number that are still open.
let start = <0, 0, 0, 1, 0> in
let digit = fix digit(p:<int, <int, int, int, int, int>>):<int, int, int, int, int>.
  let s = #2 p in
  <#1 s + 1 - #2 s, 1, #3 s, #4 s, #5 s * 10 + #1 p> in
let blank = fix blank(s:<int, int, int, int, int>):<int, int, int, int, int>.
  <#1 s, 0, #3 s, #4 s, #5 s> in
let factor = fix factor(s:<int, int, int, int, int>):<int, int, int, int, int>.
  <#1 s + 1, 0, #3 s, #4 s * #5 s, 0> in
let summand = fix summand(s:<int, int, int, int, int>):<int, int, int, int, int>.
  <#1 s + 1, 0, #3 s + #4 s * #5 s, 1, 0> in

let read = fix read(p:<int, <int, int, int, int, int>>):int.
  let sign = text (#1 p) in
  let s = #2 p in
  let next = #1 p + 1 in
  if0(sign - end, let all_read = summand s in (#1 all_read - 1) * 100 + #3 all_read,
  if0(sign - gap, read <next, blank s>,
  if0(sign - plus, read <next, summand s>,
  if0(sign - times, read <next, factor s>,
  read <next, digit <sign, s>>)))) in
read <0, start>
