Minimize
 obj: x + y
Subject To
 c1: x + y <= 1
 c2: - x - y <= -2
Binaries
 x y
End
