-- Booleans: 1 is yes and 0 is no, so that `if0(b, .., ..)` has the branch for no first.
-- The four rows of `and` are 0001, those of `or` 0111, and those of `same` 1001.
let not = fix not(a:int):int. 1 - a in
let and = fix and(p:<int, int>):int. #1 p * #2 p in
let or = fix or(p:<int, int>):int. not (not (#1 p) * not (#2 p)) in
let same = fix same(p:<int, int>):int. if0(#1 p - #2 p, 1, 0) in
let rows = fix rows(f:<int, int> -> int):int.
  f <0, 0> * 1000 + f <0, 1> * 100 + f <1, 0> * 10 + f <1, 1> in
rows and * 100000000 + rows or * 10000 + rows same
