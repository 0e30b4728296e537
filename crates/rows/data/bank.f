-- A bank: an account is a tuple of functions over a cell that nobody else has. Who takes more than there is, or has
-- another number than the owner, is refused and counted. It gives 70, 30 and 2 refusals as 70030002.
let below = fix below(p:<int, int>):int.
  if0(#2 p, 0, if0(#1 p, 1, below <#1 p - 1, #2 p - 1>)) in
let refused = ref 0 in

-- What is in it, how to put into it, and how to take out of it: given the number of the owner and an amount, 1 where
-- it was taken.
let account = fix account(owner:int):<<> -> int, int -> <>, <int, int> -> int>.
  let held = ref 0 in
  let refuse = fix refuse(u:<>):int.
    let counted = refused := !refused + 1 in
    0 in
  <fix balance(u:<>):int. !held,
   fix deposit(amount:int):<>. held := !held + amount,
   fix withdraw(p:<int, int>):int.
     if0(#1 p - owner,
       if0(below <!held, #2 p>,
         let taken = held := !held - #2 p in
         1,
         refuse <>),
       refuse <>)> in

-- From one account to another, by the number of the first one's owner.
let move = fix move(p:<<<> -> int, int -> <>, <int, int> -> int>,
    <<> -> int, int -> <>, <int, int> -> int>, int, int>):<>.
  let from = #1 p in
  let to = #2 p in
  if0((#3 from) <#3 p, #4 p>, <>, (#2 to) (#4 p)) in

let ann = account 1234 in
let bob = account 8765 in
let paid = (#2 ann) 100 in
let first = move <ann, bob, 1234, 30> in
let thief = move <ann, bob, 8765, 50> in
let too_much = move <bob, ann, 8765, 31> in
(#1 ann) <> * 1000000 + (#1 bob) <> * 1000 + !refused
