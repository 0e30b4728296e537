-- Two ways to take two arguments, one turned into the other.
((gen a. gen b. gen c. fix curry(f:<a, b> -> c):a -> b -> c. fix first(x:a):b -> c. fix second(y:b):c. f <x, y>)
  [int][int][int] (fix minus(p:<int, int>):int. #1 p - #2 p)) 50 8
