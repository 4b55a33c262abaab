\ Three jobs on two machines. Machine b has to be switched on, which costs 2, and what it does must stand next to each
\ other in the queue; machine a has 5 hours.
Minimize
 cost: 3 a1 + 4 a2 + 5 a3 + 4 b1 + 3 b2 + 5 b3 + 2 run_b
Subject To
 job1: a1 + b1 = 1
 job2: a2 + b2 = 1
 job3: a3 + b3 = 1
 hours: 2 a1 + 3 a2 + 2 a3 <= 5
 off: run_b = 0 -> b1 + b2 + b3 <= 0
Binaries
 a1 a2 a3 b1 b2 b3 run_b
SOS
 next: S2:: b1:1 b2:2 b3:3
End
