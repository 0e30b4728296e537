-- A polymorphic function over two types: the fields of a pair exchanged.
#1 ((gen a. gen b. fix swap(p:<a, b>):<b, a>. <#2 p, #1 p>)[int][int -> int] <3, fix next(x:int):int. x + 1>) 41
