NAME          BLANK     FREE
ROWS
 N  OBJROW
 L  stock_top
 G  stock_least
 L  time
COLUMNS
    X OBJROW  -3.         stock_top 1.          
    X stock_least 1.           time 2.          
    Y OBJROW  -2.         stock_top 1.          
    Y stock_least 1.           time 1.          
    Z OBJROW  -1.5        stock_top  -1.        
    Z stock_least  -1.         time 3.          
RHS
    RHS stock_top 4.           stock_least  -1.        
    RHS time 9.          
BOUNDS
 UI BOUND X 3.          
 UI BOUND Y 2.          
 UI BOUND Z 2.          
ENDATA
