-- Knots: functions that call each other, as many as there are, stand in cells, which are made first and tied last.
-- A number is counted down by three functions in turn, and who comes to 0 tells the remainder by 3: of 100 it is 1.
let none = fix none(n:int):int. ~1 in
let zero = ref none in
let one = ref none in
let two = ref none in
let tied = <
  zero := (fix by0(n:int):int. if0(n, 0, (!one) (n - 1))),
  one := (fix by1(n:int):int. if0(n, 1, (!two) (n - 1))),
  two := (fix by2(n:int):int. if0(n, 2, (!zero) (n - 1)))> in
(!zero) 100
