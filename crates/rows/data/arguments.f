-- Several arguments: as one tuple, whose fields get names; or one after the other, so that a function with its first
-- argument is a function too. 4 times 6 times 10 is 240.
let volume = fix volume(p:<int, int, int>):int.
  let length = #1 p in
  let width = #2 p in
  let height = #3 p in
  length * width * height in
let scale = fix scale(by:int):int -> int. fix of(n:int):int. by * n in
let double = scale 2 in
volume <double 2, double 3, scale 10 1>
