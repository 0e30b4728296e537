-- One thing after another: a `let` for each, or the fields of a tuple, which are evaluated from left to right.
-- 3 and 4 are exchanged, then doubled: 8 and 6.
let exchange = fix exchange(p:<ref int, ref int>):<>.
  let before = !(#1 p) in
  let first = #1 p := !(#2 p) in
  #2 p := before in
let a = ref 3 in
let b = ref 4 in
#4 <exchange <a, b>, a := !a + !a, b := !b + !b, !a * 10 + !b>
