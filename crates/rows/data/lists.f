-- Lists with a head and a tail: from its fold a list is split into the two, and functions go down two lists at a time.
-- The products of 1, 2, 3 with 4, 5, 6 added up are 32.
open [list, m] =
  pack[all r. <r, <int, r> -> r> -> r,
    <gen r. fix empty(f:<r, <int, r> -> r>):r. #1 f,
     fix put(p:<int, all r. <r, <int, r> -> r> -> r>):all r. <r, <int, r> -> r> -> r.
       gen r. fix put(f:<r, <int, r> -> r>):r. (#2 f) <#1 p, (#2 p)[r] f>,
     gen r. fix fold(p:<all r. <r, <int, r> -> r> -> r, r, <int, r> -> r>):r. (#1 p)[r] <#2 p, #3 p>>]
  as some list. <list, <int, list> -> list, all r. <list, r, <int, r> -> r> -> r> in
let empty = #1 m in
let put = #2 m in
let fold = #3 m in
-- 1 where there is a head, and else 0; the head; and the tail. Each part of the list hands on the whole of itself too.
let split = fix split(l:list):<int, int, list>.
  let parts = fold[<int, int, list, list>]
    <l, <0, 0, empty, empty>,
     fix each(e:<int, <int, int, list, list>>):<int, int, list, list>.
       let tail = #4 (#2 e) in
       <1, #1 e, tail, put <#1 e, tail>>> in
  <#1 parts, #2 parts, #3 parts> in
let products = fix products(p:<list, list>):int.
  let a = split (#1 p) in
  let b = split (#2 p) in
  if0(#1 a * #1 b, 0, #2 a * #2 b + products <#3 a, #3 b>) in
let three = fix three(p:<int, int, int>):list. put <#1 p, put <#2 p, put <#3 p, empty>>> in
products <three <1, 2, 3>, three <4, 5, 6>>
