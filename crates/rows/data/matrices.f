-- Matrices of 2 by 2 over any ring, as integers, or matrices of integers: one product, and one power. The tenth power
-- of <1, 1, 1, 0> begins with 89, and the eleventh of four matrices 1 with a matrix that begins with 1024: 891024.
let product = gen a. fix product(ring:<a -> a -> a, a -> a -> a>):
    <a, a, a, a> -> <a, a, a, a> -> <a, a, a, a>.
  let plus = #1 ring in
  let times = #2 ring in
  fix left(m:<a, a, a, a>):<a, a, a, a> -> <a, a, a, a>.
  fix right(n:<a, a, a, a>):<a, a, a, a>.
    <plus (times (#1 m) (#1 n)) (times (#2 m) (#3 n)),
     plus (times (#1 m) (#2 n)) (times (#2 m) (#4 n)),
     plus (times (#3 m) (#1 n)) (times (#4 m) (#3 n)),
     plus (times (#3 m) (#2 n)) (times (#4 m) (#4 n))> in
let sum = gen a. fix sum(plus:a -> a -> a):<a, a, a, a> -> <a, a, a, a> -> <a, a, a, a>.
  fix left(m:<a, a, a, a>):<a, a, a, a> -> <a, a, a, a>.
  fix right(n:<a, a, a, a>):<a, a, a, a>.
    <plus (#1 m) (#1 n), plus (#2 m) (#2 n), plus (#3 m) (#3 n), plus (#4 m) (#4 n)> in

-- A value to a power from 1 on, by any product.
let power = gen a. fix power(times:a -> a -> a):<a, int> -> a.
  fix raise(p:<a, int>):a. if0(#2 p - 1, #1 p, times (#1 p) (raise <#1 p, #2 p - 1>)) in

-- The ring of integers, the ring of matrices, and the product of matrices of matrices.
let plus = fix plus(m:int):int -> int. fix to(n:int):int. m + n in
let times = fix times(m:int):int -> int. fix by(n:int):int. m * n in
let times2 = product[int] <plus, times> in
let plus2 = sum[int] plus in
let times4 = product[<int, int, int, int>] <plus2, times2> in

let fibonacci = power[<int, int, int, int>] times2 <<1, 1, 1, 0>, 10> in
let one = <1, 0, 0, 1> in
let blocks = power[<<int, int, int, int>, <int, int, int, int>, <int, int, int, int>, <int, int, int, int>>]
  times4 <<one, one, one, one>, 11> in
#1 fibonacci * 10000 + #1 (#1 blocks)
