Maximize
 obj: 3 x + 2 y
Subject To
 c1: x + y <= 1
Binaries
 x y
End
