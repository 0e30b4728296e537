-- Bits: two numbers are gone through from the lowest bit to the highest, and a function of two bits says which bits the
-- result has. Of 12 and 10 `and` is 8, `or` 14 and `exclusive` 6, and minus 1 has 64 bits: 8140664.
let bitwise = fix bitwise(f:<int, int> -> int):<int, int> -> int.
  fix on(p:<int, int>):int.
    let go = fix go(power:int):<int, int, int, int>.
      if0(power, <#1 p, #2 p, 1, 0>,
        let lower = go (power + power) in
        let unit = #3 lower in
        let left = if0(#1 lower * power, 0, 1) in
        let right = if0(#2 lower * power, 0, 1) in
        <#1 lower - left * unit, #2 lower - right * unit, unit + unit, #4 lower + f <left, right> * unit>) in
    #4 (go 1) in
let and = bitwise (fix and(p:<int, int>):int. #1 p * #2 p) in
let or = bitwise (fix or(p:<int, int>):int. #1 p + #2 p - #1 p * #2 p) in
let exclusive = bitwise (fix exclusive(p:<int, int>):int. if0(#1 p - #2 p, 0, 1)) in
-- How many bits a number has: the last one is taken away, as `and` with the number below leaves the others.
let count = fix count(n:int):int. if0(n, 0, 1 + count (and <n, n - 1>)) in
and <12, 10> * 1000000 + or <12, 10> * 10000 + exclusive <12, 10> * 100 + count ~1
