* How many people start their five days of work on each day of the week, at most three a day.
NAME          ROSTER
ROWS
 N  COST
 G  NMON
 G  NTUE
 G  NWED
 G  NTHU
 G  NFRI
 G  NSAT
 G  NSUN
COLUMNS
    WHOLE     'MARKER'                 'INTORG'
    MON       COST         100  NMON           1
    MON       NTUE           1  NWED           1
    MON       NTHU           1  NFRI           1
    TUE       COST         104  NTUE           1
    TUE       NWED           1  NTHU           1
    TUE       NFRI           1  NSAT           1
    WED       COST         108  NWED           1
    WED       NTHU           1  NFRI           1
    WED       NSAT           1  NSUN           1
    THU       COST         108  NTHU           1
    THU       NFRI           1  NSAT           1
    THU       NSUN           1  NMON           1
    FRI       COST         108  NFRI           1
    FRI       NSAT           1  NSUN           1
    FRI       NMON           1  NTUE           1
    SAT       COST         106  NSAT           1
    SAT       NSUN           1  NMON           1
    SAT       NTUE           1  NWED           1
    SUN       COST         102  NSUN           1
    SUN       NMON           1  NTUE           1
    SUN       NWED           1  NTHU           1
    WHOLE     'MARKER'                 'INTEND'
RHS
    NEED      NMON           4  NTUE           4
    NEED      NWED           4  NTHU           4
    NEED      NFRI           4  NSAT           2
    NEED      NSUN           2
BOUNDS
 UP STAFF     MON            3
 UP STAFF     TUE            3
 UP STAFF     WED            3
 UP STAFF     THU            3
 UP STAFF     FRI            3
 UP STAFF     SAT            3
 UP STAFF     SUN            3
ENDATA
