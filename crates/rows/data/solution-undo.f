-- 5.4  A cell with a memory: `set n` puts a number into it, and `undo <>` takes back the last `set` that was not taken
-- back yet. Write both. The cell `back` holds what `undo` does next: a function that puts things as they were.
-- case: #4 <set 1, set 2, undo <>, !cell> = 1
-- case: #5 <set 1, set 2, undo <>, undo <>, !cell> = 0
-- case: #6 <set 1, set 2, undo <>, set 3, undo <>, !cell> = 1
-- case: #3 <undo <>, undo <>, !cell> = 0
let cell = ref 0 in
let back = ref (fix nothing(u:<>):<>. <>) in
let set = fix set(n:int):<>.
  let old = !cell in
  let before = !back in
  let kept = back := (fix restore(u:<>):<>.
    let put = cell := old in
    back := before) in
  cell := n in
let undo = fix undo(u:<>):<>.
  (!back) <> in
#4 <set 1, set 2, undo <>, !cell> -- input
