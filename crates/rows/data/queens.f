-- How many ways there are to put 6 queens on a board of 6 rows and columns so that none attacks another: 4.
-- The queens so far are a function from fields to integers, a product that is 0 at each field that one of them attacks.
let size = 6 in

-- What a queen at one field adds to the product: 0 in its column and on its two diagonals.
let attack = fix attack(p:<<int, int>, <int, int>>):int.
  let rows = #1 (#1 p) - #1 (#2 p) in
  let columns = #2 (#1 p) - #2 (#2 p) in
  columns * (columns - rows) * (columns + rows) in

let with = fix with(p:<<int, int>, <int, int> -> int>):<int, int> -> int.
  fix free(field:<int, int>):int. attack <field, #1 p> * (#2 p) field in

-- The ways to go on from a field, row by row, where the rows above have their queens.
let ways = fix ways(s:<<int, int>, <int, int> -> int>):int.
  let field = #1 s in
  let row = #1 field in
  let column = #2 field in
  let free = #2 s in
  if0(size - row, 1,
    if0(size - column, 0,
      let here = if0(free field, 0, ways <<row + 1, 0>, with <field, free>>) in
      here + ways <<row, column + 1>, free>)) in

ways <<0, 0>, fix nobody(field:<int, int>):int. 1>
