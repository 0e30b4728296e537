-- Coroutines: a writer and a reader, each of which leaves in a cell what it will do when it is called again, the one in
-- the middle of a recursion. 1 2 1 3 1 2 1 is written, and read two at a time: 12 + 13 + 12 + 10 is 47.
let reader = ref (fix none(n:int):int. 0) in
let writer = ref (fix none(u:<>):int. 0) in
let send = fix send(p:<int, <> -> int>):int.
  let left = writer := #2 p in
  (!reader) (#1 p) in
let receive = fix receive(rest:int -> int):int.
  let left = reader := rest in
  (!writer) <> in

-- Sends what stands in a tree of so many levels, from left to right, and then goes on with the rest: at each level its
-- number.
let walk = fix walk(p:<int, <> -> int>):int.
  let level = #1 p in
  let rest = #2 p in
  if0(level, rest <>,
    walk <level - 1,
      fix middle(u:<>):int. send <level,
        fix right(u:<>):int. walk <level - 1, rest>>>) in
-- Sends 0 for the end, and is never called again.
let stop = fix stop(u:<>):int. send <0, fix never(u:<>):int. ~1> in

-- Reads two numbers at a time; where there is no second one, it counts as 0.
let pairs = fix pairs(sum:int):int.
  receive (fix first(a:int):int.
    if0(a, sum,
      receive (fix second(b:int):int.
        if0(b, sum + 10 * a, pairs (sum + 10 * a + b))))) in

let begun = writer := (fix begin(u:<>):int. walk <3, stop>) in
pairs 0
