-- The longest common subsequence of 314159265 and 141421356, which is 14125 or another of 5 digits. A memo in a cell
-- knows what was found, so that 58 pairs of beginnings are looked at, each once. It gives 558.
let then = fix then(p:<int, int -> int>):int -> int.
  fix at(place:int):int. if0(place, #1 p, (#2 p) (place - 1)) in
let none = fix none(place:int):int. 0 in
let three = fix three(p:<int, int, int, int -> int>):int -> int. then <#1 p, then <#2 p, then <#3 p, #4 p>>> in
let left = three <3, 1, 4, three <1, 5, 9, three <2, 6, 5, none>>> in
let right = three <1, 4, 1, three <4, 2, 1, three <3, 5, 6, none>>> in

let greater = fix greater(p:<int, int>):int.
  if0(#1 p, #2 p, if0(#2 p, #1 p, 1 + greater <#1 p - 1, #2 p - 1>)) in

-- What is known of a pair of lengths is 1 more than its longest, or 0 where nothing is known.
let memo = ref (fix nothing(pair:<int, int>):int. 0) in
let looked = ref 0 in
let keep = fix keep(p:<int, int, int>):int.
  let before = !memo in
  let counted = looked := !looked + 1 in
  let kept = memo := (fix find(pair:<int, int>):int.
    if0(#1 pair - #1 p, if0(#2 pair - #2 p, #3 p + 1, before pair), before pair)) in
  #3 p in

-- The longest of the first so many digits on the left and the first so many on the right.
let longest = fix longest(pair:<int, int>):int.
  let i = #1 pair in
  let j = #2 pair in
  if0(i * j, 0,
    let known = (!memo) pair in
    if0(known,
      keep <i, j,
        if0(left (i - 1) - right (j - 1),
          1 + longest <i - 1, j - 1>,
          greater <longest <i - 1, j>, longest <i, j - 1>>)>,
      known - 1)) in
let length = longest <9, 9> in
length * 100 + !looked
