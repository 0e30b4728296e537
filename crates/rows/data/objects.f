-- Objects: a kind is a function from the object itself to its methods, so that a method calls what the object has, and
-- not what its own kind has. An animal has 4 legs and reports them ten times; a bird is an animal with 2: 4020.
let animal = fix animal(self:<> -> <<> -> int, <> -> int>):<<> -> int, <> -> int>.
  <fix legs(u:<>):int. 4,
   fix report(u:<>):int. 10 * (#1 (self <>)) <>> in
let bird = fix bird(self:<> -> <<> -> int, <> -> int>):<<> -> int, <> -> int>.
  let parent = animal self in
  <fix legs(u:<>):int. 2, #2 parent> in
let new = fix new(kind:(<> -> <<> -> int, <> -> int>) -> <<> -> int, <> -> int>):<<> -> int, <> -> int>.
  (fix self(u:<>):<<> -> int, <> -> int>. kind self) <> in
(#2 (new animal)) <> * 100 + (#2 (new bird)) <>
