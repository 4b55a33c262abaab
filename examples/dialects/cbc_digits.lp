\Problem name: num

Minimize
OBJROW: 0.12346 X
Subject To
NEED:  X >= 2
Bounds
 0 <= X <= 3
Integers
X 
End
