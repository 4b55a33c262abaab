\ Seven boxes from three suppliers. The far one is the cheapest, but sells none or three to six; the other two name no
\ greatest number, and the need closes it.
Minimize
 cost: 4 near + 3 far + 4 other
Subject To
 need: near + far + other = 7
Bounds
 3 <= far <= 6
Generals
 near far other
Semi-continuous
 far
End
