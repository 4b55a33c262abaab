* How many people work early, late and at night, in a team of seven or eight.
NAME          SHIFT
ROWS
 N  COST
 G  DAY
 G  DUSK
 E  TEAM
COLUMNS
    WHOLE     'MARKER'                 'INTORG'
    EARLY     COST         10   DAY            1
    EARLY     TEAM          1
    LATE      COST         10   DAY            1
    LATE      DUSK          1   TEAM           1
    NIGHT     COST       12.5   DUSK           1
    NIGHT     TEAM          1
    WHOLE     'MARKER'                 'INTEND'
RHS
    NEED      COST        -20   DAY            5
    NEED      DUSK          4   TEAM           8
RANGES
    SPAN      DAY           2   TEAM          -1
BOUNDS
 UP STAFF     EARLY         4
 LO STAFF     LATE          1
 UP STAFF     LATE          4
 LI STAFF     NIGHT         1
 UI STAFF     NIGHT         3
ENDATA
