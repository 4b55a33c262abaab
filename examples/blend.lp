\ How many whole batches of two feeds to buy. Each batch of the first has 0.30 units of protein, each of the second .42,
\ and 1.2 are needed; the fibre has to stay between two sides; delivery costs 12.
Minimize
 cost: 2.5 batches_a + 3.75 batches_b + 12
Subject To
 protein: 0.30 batches_a + .42 batches_b >= 1.2
 fibre:   -5 <= 3 batches_a - 2e0 batches_b <= 8
Bounds
 batches_a <= 20
 0 <= batches_b <= 1e1
Generals
 batches_a batches_b
End
