\* base *\
Maximize
OBJ: 3 x + 2 y + 1.5 z
Subject To
_C1: x + y - z <= 4
_C2: 2 x + y + 3 z <= 9
Bounds
 0 <= x <= 3
 0 <= y <= 2
 0 <= z <= 2
Generals
x
y
z
End
