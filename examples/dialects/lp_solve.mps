*<meta creator='lp_solve v5.5'>
*<meta rows=2>
*<meta columns=3>
*<meta equalities=0>
*<meta integers=3>
*<meta origsense='MAX'>
*
NAME                  
OBJSENSE
 MAX
ROWS
 N  R0      
 G  STOCK   
 L  TIME    
COLUMNS
    MARK0000  'MARKER'                 'INTORG'
    X         R0        3.0000000000   STOCK     1.0000000000
    X         TIME      2.0000000000
    Y         R0        2.0000000000   STOCK     1.0000000000
    Y         TIME      1.0000000000
    Z         R0        1.5000000000   STOCK     -1.000000000
    Z         TIME      3.0000000000
    MARK0001  'MARKER'                 'INTEND'
RHS
    RHS       R0        -10.00000000   STOCK     -1.000000000
    RHS       TIME      9.0000000000
RANGES
    RGS       STOCK     5.0000000000
BOUNDS
 LO BND       X         0.0000000000
 UP BND       X         3.0000000000
 LO BND       Y         0.0000000000
 UP BND       Y         2.0000000000
 LO BND       Z         0.0000000000
 UP BND       Z         2.0000000000
ENDATA
