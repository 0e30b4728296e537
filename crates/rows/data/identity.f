-- The polymorphic identity, at the type of integers.
(gen a. fix f(x:a):a. x)[int] 3
