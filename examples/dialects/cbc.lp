\Problem name: 

Minimize
OBJROW: -3 X -2 Y -1.50000 Z
Subject To
stock_top:  X + Y - Z <= 4
stock_least:  X + Y - Z >= -1
time:  2 X + Y + 3 Z <= 9
Bounds
 0 <= X <= 3
 0 <= Y <= 2
 0 <= Z <= 2
Integers
X Y Z 
End
