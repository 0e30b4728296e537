-- Church numerals: a number n is what does a thing n times, whatever the type. Two times three, shown as an integer.
(fix show(n:all a. (a -> a) -> a -> a):int. n[int] (fix next(x:int):int. x + 1) 0)
  ((fix times(p:<all a. (a -> a) -> a -> a, all a. (a -> a) -> a -> a>):all a. (a -> a) -> a -> a.
      gen a. fix f(s:a -> a):a -> a. (#1 p)[a] ((#2 p)[a] s))
    <gen a. fix two(s:a -> a):a -> a. fix on(z:a):a. s (s z),
     gen a. fix three(s:a -> a):a -> a. fix on(z:a):a. s (s (s z))>)
