-- A short name for a type: a package that is opened at once. Behind the `in` the type is `point`, and what is done with
-- points is what the package has for it. The square of 2 + 3i is -5 + 12i: 12 and 5.
open [point, m] =
  pack[<int, int>,
    <fix make(p:<int, int>):<int, int>. p,
     fix real(p:<int, int>):int. #1 p,
     fix imaginary(p:<int, int>):int. #2 p>]
  as some point. <<int, int> -> point, point -> int, point -> int> in
let make = #1 m in
let real = #2 m in
let imaginary = #3 m in
let times = fix times(p:<point, point>):point.
  let a = #1 p in
  let b = #2 p in
  make <real a * real b - imaginary a * imaginary b, real a * imaginary b + imaginary a * real b> in
let number = make <2, 3> in
let square = times <number, number> in
imaginary square * 100 - real square
