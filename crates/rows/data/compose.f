-- The composition of two functions, at three types.
((gen a. gen b. gen c. fix compose(fs:<a -> b, b -> c>):a -> c. fix then(x:a):c. (#2 fs) ((#1 fs) x))
  [int][<int, int>][int]
  <fix twice(x:int):<int, int>. <x, x>, fix product(p:<int, int>):int. #1 p * #2 p>) 12
