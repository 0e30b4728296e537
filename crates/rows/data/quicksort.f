-- Quicksort: what is below the first number, then that number, then the others, each part sorted in the same way.
-- A list is its fold, which a package gives the short name `list`. It sorts 3 1 4 1 5 9 2 6 5 3, and gives 1123345569.
open [list, m] =
  pack[all r. (<int, r> -> r) -> r -> r,
    <gen r. fix fold(add:<int, r> -> r):r -> r. fix from(start:r):r. start,
     fix put(p:<int, all r. (<int, r> -> r) -> r -> r>):all r. (<int, r> -> r) -> r -> r.
       gen r. fix fold(add:<int, r> -> r):r -> r. fix from(start:r):r. add <#1 p, (#2 p)[r] add start>,
     gen r. fix fold(p:<all r. (<int, r> -> r) -> r -> r, <int, r> -> r, r>):r. (#1 p)[r] (#2 p) (#3 p)>]
  as some list. <list, <int, list> -> list, all r. <list, <int, r> -> r, r> -> r> in
let empty = #1 m in
let put = #2 m in
let fold = #3 m in

-- 1 where a number is below another, both at 0 or above: they are counted down together.
let below = fix below(p:<int, int>):int.
  if0(#2 p, 0, if0(#1 p, 1, below <#1 p - 1, #2 p - 1>)) in
let join = fix join(p:<list, list>):list. fold[list] <#1 p, put, #2 p> in
let keep = fix keep(p:<int -> int, list>):list.
  fold[list] <#2 p, fix each(e:<int, list>):list. if0((#1 p) (#1 e), #2 e, put e), empty> in

-- The number of elements that there are at the head, 0 or 1; the head; and the tail.
let split = fix split(l:list):<int, int, list>.
  let parts = fold[<int, int, list, list>]
    <l,
     fix each(e:<int, <int, int, list, list>>):<int, int, list, list>.
       let whole = #4 (#2 e) in
       <1, #1 e, whole, put <#1 e, whole>>,
     <0, 0, empty, empty>> in
  <#1 parts, #2 parts, #3 parts> in

let sort = fix sort(l:list):list.
  let parts = split l in
  let first = #2 parts in
  let rest = #3 parts in
  if0(#1 parts, empty,
    let less = keep <fix less(n:int):int. below <n, first>, rest> in
    let more = keep <fix more(n:int):int. 1 - below <n, first>, rest> in
    join <sort less, put <first, sort more>>) in

let digits = fix digits(l:list):int.
  let shown = fold[<int, int>]
    <l, fix each(e:<int, <int, int>>):<int, int>. <#1 (#2 e) + #1 e * #2 (#2 e), #2 (#2 e) * 10>, <0, 1>> in
  #1 shown in
let three = fix three(p:<int, int, int, list>):list. put <#1 p, put <#2 p, put <#3 p, #4 p>>> in
digits (sort (three <3, 1, 4, three <1, 5, 9, three <2, 6, 5, put <3, empty>>>>))
