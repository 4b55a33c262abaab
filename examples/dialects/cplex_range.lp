\ENCODING=ISO-8859-1
\Problem name: bakery

Maximize
 obj: 3 X + 2 Y + 1.5 Z + 10
Subject To
 stock: X + Y - Z - Rgstock  = -1
 time:  2 X + Y + 3 Z <= 9
Bounds
 0 <= X <= 3
 0 <= Y <= 2
 0 <= Z <= 2
 0 <= Rgstock <= 5
Generals
 X  Y  Z
End
