-- 6.4  Write the program of which this is the form `cps`: read off it what is called, and what comes back where.
-- form: cps
-- | let x0 = code x0[](x1: int, x2: code[](int)) {
-- |   let x3 = x1 * x1
-- |   x2[](x3)
-- | }
-- | x0[](3, code x1[](x2: int) {
-- |   x0[](4, code x3[](x4: int) {
-- |     let x5 = x2 + x4
-- |     halt x5
-- |   })
-- | })
let square = fix square(n:int):int. n * n in
square 3 + square 4
