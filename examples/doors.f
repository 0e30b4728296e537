-- A hundred doors in a row, all shut. Whoever comes as number `step` turns each door at `step`, twice `step`, and so on:
-- a shut one is opened, an open one shut. After a hundred have come those are open that were turned an odd number of
-- times, the doors of square numbers. It gives the sum of their numbers, which is 385.
let size = 101 in

-- A row of cells is a function from places to cells; each is made once, and holds 0, for shut, at first.
let cells = (fix cells(n:int):int -> ref int.
  let cell = ref 0 in
  if0(n,
    fix last(place:int):ref int. cell,
    let before = cells (n - 1) in
    fix find(place:int):ref int. if0(place - n, cell, before place))) size in

-- Goes on from a place to the end, and turns the door where `wait` has come to 0, which it does every `step` places.
let turn = fix turn(p:<int, int, int>):<>.
  let step = #1 p in
  let wait = #2 p in
  let place = #3 p in
  if0(size - place, <>,
    if0(wait,
      let turned = cells place := 1 - !(cells place) in
      turn <step, step - 1, place + 1>,
      turn <step, wait - 1, place + 1>)) in

-- All come, from a number on.
let come = fix come(step:int):<>.
  if0(size - step, <>,
    let turned = turn <step, step - 1, 1> in
    come (step + 1)) in
let came = come 1 in

let sum = fix sum(p:<int, int>):int.
  let place = #1 p in
  let so_far = #2 p in
  if0(size - place, so_far,
    sum <place + 1, if0(!(cells place), so_far, so_far + place)>) in
sum <1, 0>
