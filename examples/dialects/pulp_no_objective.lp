\* none *\
Minimize
OBJ: __dummy
Subject To
_C1: x + y >= 1
Bounds
 __dummy = 0
 0 <= x <= 3
 0 <= y <= 2
Generals
x
y
End
