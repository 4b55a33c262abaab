\ The model that the files beside this one were meant to be, in the words of this program.
Maximize
 profit: 3 X + 2 Y + 1.5 Z + 10
Subject To
 stock: -1 <= X + Y - Z <= 4
 time: 2 X + Y + 3 Z <= 9
Bounds
 X <= 3
 Y <= 2
 Z <= 2
Generals
 X Y Z
End
