/* Objective function */
max: +3 X +2 Y +1.5 Z +10;

/* Constraints */
STOCK: +4 >= +X +Y -Z >= -1;
TIME: +2 X +Y +3 Z <= 9;

/* Variable bounds */
X <= 3;
Y <= 2;
Z <= 2;

/* Integer definitions */
int X,Y,Z;
