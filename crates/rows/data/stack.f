-- A stack of integers as a package: inside it is its height and a function from places to integers. Who opens it has
-- push, pop and top, and no other way to a stack; here they compute (2 + 3) * 4.
open [stack, m] =
  pack[<int, int -> int>,
    <<0, fix none(place:int):int. 0>,
     fix push(p:<<int, int -> int>, int>):<int, int -> int>.
       let old = #1 p in
       let height = #1 old in
       <height + 1, fix at(place:int):int. if0(place - height, #2 p, (#2 old) place)>,
     fix pop(s:<int, int -> int>):<int, int -> int>. <#1 s - 1, #2 s>,
     fix top(s:<int, int -> int>):int. (#2 s) (#1 s - 1)>]
  as some stack. <stack, <stack, int> -> stack, stack -> stack, stack -> int> in
let empty = #1 m in
let push = #2 m in
let pop = #3 m in
let top = #4 m in
let add = fix add(s:stack):stack. push <pop (pop s), top (pop s) + top s> in
let multiply = fix multiply(s:stack):stack. push <pop (pop s), top (pop s) * top s> in
top (multiply (push <add (push <push <empty, 2>, 3>), 4>))
