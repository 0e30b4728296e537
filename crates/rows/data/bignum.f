-- Numbers of 40 digits: a function from places to digits, the lowest at 0. 1 is doubled a hundred times to 2 to the
-- power of 100, which is 1267650600228229401496703205376: it has 31 digits, and their sum is 115. It gives 31115.
let room = 40 in
let below = fix below(p:<int, int>):int.
  if0(#2 p, 0, if0(#1 p, 1, below <#1 p - 1, #2 p - 1>)) in

-- Two numbers added place by place, with what is carried to the next. A digit is found once, and then
-- stands in the function that finds it.
let add = fix add(p:<int -> int, int -> int>):int -> int.
  let left = #1 p in
  let right = #2 p in
  let go = fix go(s:<int, int, int -> int>):int -> int.
    let place = #1 s in
    let sum = left place + right place + #2 s in
    let before = #3 s in
    let digit = fix digit(d:int):int -> int.
      fix find(at:int):int. if0(at - place, d, before at) in
    if0(room - place, before,
      if0(below <sum, 10>,
        go <place + 1, 1, digit (sum - 10)>,
        go <place + 1, 0, digit sum>)) in
  go <0, 0, fix none(at:int):int. 0> in

let double = fix double(p:<int, int -> int>):int -> int.
  if0(#1 p, #2 p, double <#1 p - 1, add <#2 p, #2 p>>) in

-- The sum of the digits, and how many there are up to the highest that is not 0.
let sum = fix sum(p:<int, int -> int>):int.
  if0(#1 p, 0, (#2 p) (#1 p - 1) + sum <#1 p - 1, #2 p>) in
let digits = fix digits(p:<int, int -> int>):int.
  if0(#1 p, 0, if0((#2 p) (#1 p - 1), digits <#1 p - 1, #2 p>, #1 p)) in

let one = fix one(place:int):int. if0(place, 1, 0) in
let power = double <100, one> in
digits <room, power> * 1000 + sum <room, power>
