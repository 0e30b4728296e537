-- Binary trees as folds. Of a tree over the numbers 1 to 7 the program gives the sum 28, the depth 3, and the numbers
-- from right to left: 28 * 100000000 + 3 * 10000000 + 7654321.
open [tree, m] =
  pack[all r. <r, <r, int, r> -> r> -> r,
    <gen r. fix fold(f:<r, <r, int, r> -> r>):r. #1 f,
     fix node(p:<all r. <r, <r, int, r> -> r> -> r, int, all r. <r, <r, int, r> -> r> -> r>)
         :all r. <r, <r, int, r> -> r> -> r.
       gen r. fix fold(f:<r, <r, int, r> -> r>):r. (#2 f) <(#1 p)[r] f, #2 p, (#3 p)[r] f>,
     gen r. fix fold(p:<all r. <r, <r, int, r> -> r> -> r, r, <r, int, r> -> r>):r. (#1 p)[r] <#2 p, #3 p>>]
  as some tree. <tree, <tree, int, tree> -> tree, all r. <tree, r, <r, int, r> -> r> -> r> in
let leaf = #1 m in
let node = #2 m in
let fold = #3 m in

-- The greater of two numbers at 0 or above: they are counted down together until one is 0.
let greater = fix greater(p:<int, int>):int.
  if0(#1 p, #2 p, if0(#2 p, #1 p, 1 + greater <#1 p - 1, #2 p - 1>)) in

-- A tree of so many levels; its numbers count from the one that is given on. With it comes the number after its last.
let grow = fix grow(p:<int, int>):<tree, int>.
  if0(#1 p, <leaf, #2 p>,
    let left = grow <#1 p - 1, #2 p> in
    let right = grow <#1 p - 1, #2 left + 1> in
    <node <#1 left, #2 left, #1 right>, #2 right>) in

let sum = fix sum(t:tree):int.
  fold[int] <t, 0, fix add(n:<int, int, int>):int. #1 n + #2 n + #3 n> in
let depth = fix depth(t:tree):int.
  fold[int] <t, 0, fix deeper(n:<int, int, int>):int. 1 + greater <#1 n, #3 n>> in
let mirror = fix mirror(t:tree):tree.
  fold[tree] <t, leaf, fix swap(n:<tree, int, tree>):tree. node <#3 n, #2 n, #1 n>> in

-- The numbers from left to right, behind the digits so far: each tree is what it does to these.
let digits = fix digits(t:tree):int.
  fold[int -> int] <t,
    fix same(so_far:int):int. so_far,
    fix read(n:<int -> int, int, int -> int>):int -> int.
      fix on(so_far:int):int. (#3 n) ((#1 n) so_far * 10 + #2 n)> 0 in

let seven = #1 (grow <3, 1>) in
sum seven * 100000000 + depth seven * 10000000 + digits (mirror seven)
