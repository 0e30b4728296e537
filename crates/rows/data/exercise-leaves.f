-- 3.3  A tree is a leaf with a number, or two trees; it is what is done with either. Write `leaves`, their number, and
-- `deepest`, how many pairs of trees are around the leaf that lies deepest. `greater` is the greater of two numbers.
-- case: leaves tree * 10 + deepest tree = 43
-- case: leaves (leaf 9) * 10 + deepest (leaf 9) = 10
-- case: leaves (pair <tree, tree>) * 10 + deepest (pair <tree, leaf 1>) = 84
-- case: leaves (pair <leaf 1, tree>) * 10 + deepest (pair <leaf 1, tree>) = 54
let leaf = fix leaf(n:int):all r. <int -> r, <r, r> -> r> -> r.
  gen r. fix fold(f:<int -> r, <r, r> -> r>):r. (#1 f) n in
let pair = fix pair(p:<all r. <int -> r, <r, r> -> r> -> r, all r. <int -> r, <r, r> -> r> -> r>)
    :all r. <int -> r, <r, r> -> r> -> r.
  gen r. fix fold(f:<int -> r, <r, r> -> r>):r. (#2 f) <(#1 p)[r] f, (#2 p)[r] f> in
let greater = fix greater(p:<int, int>):int. if0(#1 p, #2 p, if0(#2 p, #1 p, 1 + greater <#1 p - 1, #2 p - 1>)) in
let tree = pair <pair <leaf 1, pair <leaf 2, leaf 3>>, leaf 4> in
let leaves = fix leaves(t:all r. <int -> r, <r, r> -> r> -> r):int.
  -- an expression of the type int, by `t[int]`
  in
let deepest = fix deepest(t:all r. <int -> r, <r, r> -> r> -> r):int.
  -- an expression of the type int
  in
leaves tree * 10 + deepest tree -- input
