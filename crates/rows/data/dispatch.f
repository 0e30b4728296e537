-- A tuple of functions, as a table of operations.
(fix use(table:<int -> int, int -> int, int>):int. (#1 table) ((#2 table) (#3 table)))
  <fix double(x:int):int. x + x, fix next(x:int):int. x + 1, 20>
