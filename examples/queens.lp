\ Four queens on a board of four by four, none of which attacks another: q12 is the square in row 1, column 2.
Minimize
 obj:
Subject To
 row1: q11 + q12 + q13 + q14 = 1
 row2: q21 + q22 + q23 + q24 = 1
 row3: q31 + q32 + q33 + q34 = 1
 row4: q41 + q42 + q43 + q44 = 1
 column1: q11 + q21 + q31 + q41 = 1
 column2: q12 + q22 + q32 + q42 = 1
 column3: q13 + q23 + q33 + q43 = 1
 column4: q14 + q24 + q34 + q44 = 1
 down1: q31 + q42 <= 1
 down2: q21 + q32 + q43 <= 1
 down3: q11 + q22 + q33 + q44 <= 1
 down4: q12 + q23 + q34 <= 1
 down5: q13 + q24 <= 1
 up1: q12 + q21 <= 1
 up2: q13 + q22 + q31 <= 1
 up3: q14 + q23 + q32 + q41 <= 1
 up4: q24 + q33 + q42 <= 1
 up5: q34 + q43 <= 1
Binaries
 q11 q12 q13 q14
 q21 q22 q23 q24
 q31 q32 q33 q34
 q41 q42 q43 q44
End
