-- An interpreter: an expression is what any interpreter makes of its five forms, and an interpreter is a tuple of five
-- functions. Where x0 is 10, `let x1 = x0 + 3 in x1 * (x1 * x0 + 2)` is 1716; it has 11 forms. It gives 171611.
let expression = gen r. fix expression(i:<int -> r, int -> r, <r, r> -> r, <r, r> -> r, <int, r, r> -> r>):r.
  let number = #1 i in
  let name = #2 i in
  let sum = #3 i in
  let product = #4 i in
  let bind = #5 i in
  bind <1, sum <name 0, number 3>, product <name 1, sum <product <name 1, name 0>, number 2>>> in

-- The value of an expression is a function of what its names stand for, as all parts of it are.
let value = fix value(names:int -> int):int.
  expression[(int -> int) -> int]
    <fix number(n:int):(int -> int) -> int. fix under(names:int -> int):int. n,
     fix name(x:int):(int -> int) -> int. fix under(names:int -> int):int. names x,
     fix sum(p:<(int -> int) -> int, (int -> int) -> int>):(int -> int) -> int.
       fix under(names:int -> int):int. (#1 p) names + (#2 p) names,
     fix product(p:<(int -> int) -> int, (int -> int) -> int>):(int -> int) -> int.
       fix under(names:int -> int):int. (#1 p) names * (#2 p) names,
     fix bind(p:<int, (int -> int) -> int, (int -> int) -> int>):(int -> int) -> int.
       fix under(names:int -> int):int.
         let known = (#2 p) names in
         (#3 p) (fix find(x:int):int. if0(x - #1 p, known, names x))>
    names in

-- How many forms it has: another interpreter.
let forms = expression[int]
  <fix number(n:int):int. 1,
   fix name(x:int):int. 1,
   fix sum(p:<int, int>):int. 1 + #1 p + #2 p,
   fix product(p:<int, int>):int. 1 + #1 p + #2 p,
   fix bind(p:<int, int, int>):int. 1 + #2 p + #3 p> in
value (fix ten(x:int):int. 10) * 100 + forms
