Maximize
 obj: 4 a + 3 b + 3 c + d
Subject To
 w: 3 a + 2 b + 2 c + d <= 5
Binaries
 a b c d
End
