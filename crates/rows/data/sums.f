-- Sums: a value of one of several kinds is what it does with one function for each kind. A figure is a square, by its
-- side, or a rectangle, by its two; the areas of one of each are 25 and 12, the lengths around them 20 and 14.
let square = fix square(side:int):all r. <int -> r, <int, int> -> r> -> r.
  gen r. fix square(kind:<int -> r, <int, int> -> r>):r. (#1 kind) side in
let rectangle = fix rectangle(sides:<int, int>):all r. <int -> r, <int, int> -> r> -> r.
  gen r. fix rectangle(kind:<int -> r, <int, int> -> r>):r. (#2 kind) sides in
let area = fix area(figure:all r. <int -> r, <int, int> -> r> -> r):int.
  figure[int]
    <fix square(side:int):int. side * side,
     fix rectangle(sides:<int, int>):int. #1 sides * #2 sides> in
let around = fix around(figure:all r. <int -> r, <int, int> -> r> -> r):int.
  figure[int]
    <fix square(side:int):int. 4 * side,
     fix rectangle(sides:<int, int>):int. 2 * (#1 sides + #2 sides)> in
let five = square 5 in
let door = rectangle <3, 4> in
(area five * 100 + area door) * 10000 + around five * 100 + around door
