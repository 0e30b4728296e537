-- A queue of two stacks, as a package: what comes in goes onto the one, which is poured onto the other where that is
-- empty. 1 to 3 come in, 1 and 2 go out, 4 and 5 come in, and the rest goes out: 12345.
open [queue, m] =
  pack[<<int, int -> int>, <int, int -> int>>,
    -- A stack is its height, and a function from places to integers.
    let push = fix push(p:<<int, int -> int>, int>):<int, int -> int>.
      let height = #1 (#1 p) in
      let at = #2 (#1 p) in
      <height + 1, fix find(place:int):int. if0(place - height, #2 p, at place)> in
    let top = fix top(l:<int, int -> int>):int. (#2 l) (#1 l - 1) in
    let pop = fix pop(l:<int, int -> int>):<int, int -> int>. <#1 l - 1, #2 l> in
    let pour = fix pour(q:<<int, int -> int>, <int, int -> int>>):<<int, int -> int>, <int, int -> int>>.
      let coming = #1 q in
      if0(#1 coming, q, pour <pop coming, push <#2 q, top coming>>) in
    let ready = fix ready(q:<<int, int -> int>, <int, int -> int>>):<<int, int -> int>, <int, int -> int>>.
      if0(#1 (#2 q), pour q, q) in
    let none = <0, fix none(place:int):int. 0> in
    <<none, none>,
     fix enter(p:<<<int, int -> int>, <int, int -> int>>, int>):<<int, int -> int>, <int, int -> int>>.
       <push <#1 (#1 p), #2 p>, #2 (#1 p)>,
     fix first(q:<<int, int -> int>, <int, int -> int>>):int. top (#2 (ready q)),
     fix leave(q:<<int, int -> int>, <int, int -> int>>):<<int, int -> int>, <int, int -> int>>.
       let sorted = ready q in
       <#1 sorted, pop (#2 sorted)>>]
  as some queue. <queue, <queue, int> -> queue, queue -> int, queue -> queue> in
let empty = #1 m in
let enter = #2 m in
let first = #3 m in
let leave = #4 m in

-- So many leave, and their numbers come behind the digits so far.
let serve = fix serve(s:<int, queue, int>):<queue, int>.
  if0(#1 s, <#2 s, #3 s>, serve <#1 s - 1, leave (#2 s), #3 s * 10 + first (#2 s)>) in
let three = enter <enter <enter <empty, 1>, 2>, 3> in
let served = serve <2, three, 0> in
#2 (serve <3, enter <enter <#1 served, 4>, 5>, #2 served>)
