-- A tuple, and its second field.
#2 <1, 2 + 3, <>>
