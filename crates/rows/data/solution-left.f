-- 2.1  Write a term of this type, which says all: whatever comes to an end in it does the same.
-- type: all t0. all t1. all t2. <t0, <t1, t2>> -> <<t0, t1>, t2>
-- case: let p = it[int][int][int] <1, <2, 3>> in #1 (#1 p) * 100 + #2 (#1 p) * 10 + #2 p = 123
gen a. gen b. gen c. fix left(p:<a, <b, c>>):<<a, b>, c>. <<#1 p, #1 (#2 p)>, #2 (#2 p)>
