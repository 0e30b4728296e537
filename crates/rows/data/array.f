-- An array: a function from places to cells, each of which is made once, before the function. It is filled with
-- 1 to 5, and then the other way round: 54321.
let array = fix array(size:int):int -> ref int.
  let cell = ref 0 in
  if0(size,
    fix beyond(place:int):ref int. cell,
    let before = array (size - 1) in
    fix find(place:int):ref int. if0(place + 1 - size, cell, before place)) in
let five = array 5 in
let fill = fix fill(place:int):<>.
  if0(place - 5, <>, #2 <five place := place + 1, fill (place + 1)>) in
let reverse = fix reverse(p:<int, int>):<>.
  let low = five (#1 p) in
  let high = five (#2 p) in
  let held = !low in
  if0(#2 p - 2, <>, #3 <low := !high, high := held, reverse <#1 p + 1, #2 p - 1>>) in
let digits = fix digits(p:<int, int>):int.
  if0(#1 p - 5, #2 p, digits <#1 p + 1, #2 p * 10 + !(five (#1 p))>) in
#3 <fill 0, reverse <0, 4>, digits <0, 0>>
