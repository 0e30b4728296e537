-- No program, since it is no integer: for any type, a pair with its fields exchanged.
gen a. gen b. fix turn(p:<a, b>):<b, a>. <#2 p, #1 p>
