-- 4.1  Write a clock as a package: where it starts, at 0, its next hour, and the hour that it shows. After 11 comes 0.
-- case: after 13 = 1
-- case: after 12 = 0
-- case: after 11 = 11
-- case: after 30 = 6
let clock =
  pack[int,
    <0,
     fix next(n:int):int. if0(n - 11, 0, n + 1),
     fix show(n:int):int. n>]
  as some c. <c, c -> c, c -> int> in
let after = fix after(hours:int):int.
  open [c, m] = clock in
  let go = fix go(p:<int, c>):int. if0(#1 p, (#3 m) (#2 p), go <#1 p - 1, (#2 m) (#2 p)>) in
  go <hours, #1 m> in
after 13 -- input
