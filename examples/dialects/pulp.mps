*SENSE:Maximize
NAME          base
ROWS
 N  OBJ
 L  _C1
 L  _C2
COLUMNS
    MARK      'MARKER'                 'INTORG'
    x         _C1        1.000000000000e+00
    x         _C2        2.000000000000e+00
    x         OBJ        3.000000000000e+00
    MARK      'MARKER'                 'INTEND'
    MARK      'MARKER'                 'INTORG'
    y         _C1        1.000000000000e+00
    y         _C2        1.000000000000e+00
    y         OBJ        2.000000000000e+00
    MARK      'MARKER'                 'INTEND'
    MARK      'MARKER'                 'INTORG'
    z         _C1       -1.000000000000e+00
    z         _C2        3.000000000000e+00
    z         OBJ        1.500000000000e+00
    MARK      'MARKER'                 'INTEND'
RHS
    RHS       _C1        4.000000000000e+00
    RHS       _C2        9.000000000000e+00
BOUNDS
 UP BND       x          3.000000000000e+00
 UP BND       y          2.000000000000e+00
 UP BND       z          2.000000000000e+00
ENDATA
