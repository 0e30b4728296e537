-- A state machine: a gate opens for two coins and lets one through. A state is a function that looks at what comes next
-- and calls the state after it. 2 are let through, 3 push in vain, and 1 coin is too many: 231.
let coin = 1 in
let push = 2 in
let end = 0 in
let then = fix then(p:<int, int -> int>):int -> int.
  fix at(place:int):int. if0(place, #1 p, (#2 p) (place - 1)) in
let events =
  then <coin, then <coin, then <push, then <push, then <coin,
  then <push, then <push, then <coin, then <coin, then <push,
  fix rest(place:int):int. end>>>>>>>>>> in

-- What is handed on: the place, and how many went through, pushed in vain, and put in a coin too many.
let gate = fix gate(u:<>):<<int, int, int, int> -> int, <int, int, int, int> -> int, <int, int, int, int> -> int>.
  <fix closed(s:<int, int, int, int>):int.
     let event = events (#1 s) in
     if0(event - coin, (#2 (gate <>)) <#1 s + 1, #2 s, #3 s, #4 s>,
     if0(event - push, closed <#1 s + 1, #2 s, #3 s + 1, #4 s>,
     #2 s * 100 + #3 s * 10 + #4 s)),
   fix half(s:<int, int, int, int>):int.
     let event = events (#1 s) in
     if0(event - coin, (#3 (gate <>)) <#1 s + 1, #2 s, #3 s, #4 s>,
     if0(event - push, half <#1 s + 1, #2 s, #3 s + 1, #4 s>,
     #2 s * 100 + #3 s * 10 + #4 s)),
   fix opened(s:<int, int, int, int>):int.
     let event = events (#1 s) in
     if0(event - coin, opened <#1 s + 1, #2 s, #3 s, #4 s + 1>,
     if0(event - push, (#1 (gate <>)) <#1 s + 1, #2 s + 1, #3 s, #4 s>,
     #2 s * 100 + #3 s * 10 + #4 s))> in
(#1 (gate <>)) <0, 0, 0, 0>
