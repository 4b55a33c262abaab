* Problem:    b
* Class:      MIP
* Rows:       3
* Columns:    3 (3 integer, 0 binary)
* Non-zeros:  9
* Format:     Fixed MPS
*
NAME          b
ROWS
 N  PROFIT
 E  STOCK
 L  TIME
COLUMNS
    M0000001  'MARKER'                 'INTORG'
    X         PROFIT               3   STOCK                1
    X         TIME                 2
    Y         PROFIT               2   STOCK                1
    Y         TIME                 1
    Z         PROFIT             1.5   STOCK               -1
    Z         TIME                 3
    M0000002  'MARKER'                 'INTEND'
RHS
    RHS1      STOCK               -1   TIME                 9
RANGES
    RNG1      STOCK                5
BOUNDS
 UP BND1      X                    3
 UP BND1      Y                    2
 UP BND1      Z                    2
ENDATA
