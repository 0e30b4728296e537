-- Objects: a shape hides what it is made of, and answers two messages, its area and itself made larger. A drawing
-- of a square, a rectangle and a square has the area 25 + 12 + 4 = 41, and 164 at twice the size. It gives 164041.
let square = fix square(side:int):some s. <s, s -> int, <s, int> -> s>.
  pack[int,
    <side,
     fix area(side:int):int. side * side,
     fix larger(p:<int, int>):int. #1 p * #2 p>]
  as some s. <s, s -> int, <s, int> -> s> in
let rectangle = fix rectangle(sides:<int, int>):some s. <s, s -> int, <s, int> -> s>.
  pack[<int, int>,
    <sides,
     fix area(sides:<int, int>):int. #1 sides * #2 sides,
     fix larger(p:<<int, int>, int>):<int, int>. <#1 (#1 p) * #2 p, #2 (#1 p) * #2 p>>]
  as some s. <s, s -> int, <s, int> -> s> in
-- One kind made of another: each message is sent on to both parts.
let both = fix both(p:<some s. <s, s -> int, <s, int> -> s>, some s. <s, s -> int, <s, int> -> s>>):
    some s. <s, s -> int, <s, int> -> s>.
  open [a, left] = #1 p in
  open [b, right] = #2 p in
  pack[<a, b>,
    <<#1 left, #1 right>,
     fix area(now:<a, b>):int. (#2 left) (#1 now) + (#2 right) (#2 now),
     fix larger(p:<<a, b>, int>):<a, b>.
       <(#3 left) <#1 (#1 p), #2 p>, (#3 right) <#2 (#1 p), #2 p>>>]
  as some s. <s, s -> int, <s, int> -> s> in

-- Two messages to any shape.
let area = fix area(shape:some s. <s, s -> int, <s, int> -> s>):int.
  open [s, m] = shape in
  (#2 m) (#1 m) in
let larger = fix larger(p:<some s. <s, s -> int, <s, int> -> s>, int>):some s. <s, s -> int, <s, int> -> s>.
  open [s, m] = #1 p in
  pack[s, <(#3 m) <#1 m, #2 p>, #2 m, #3 m>] as some s. <s, s -> int, <s, int> -> s> in

let drawing = both <square 5, both <rectangle <3, 4>, square 2>> in
area (larger <drawing, 2>) * 1000 + area drawing
