\* Problem: b *\

Maximize
 PROFIT: + 3 X + 2 Y + 1.5 Z
\* constant term = 10 *\

Subject To
 STOCK: + X + Y - Z - ~r_2 = -1
 TIME: + 2 X + Y + 3 Z <= 9

Bounds
 0 <= ~r_2 <= 5
 0 <= X <= 3
 0 <= Y <= 2
 0 <= Z <= 2

Generals
 X
 Y
 Z

End
