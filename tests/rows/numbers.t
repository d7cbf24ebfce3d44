A signed number of five digits, two of them behind the point, and what doesn't fit it.

  $ "$DMS" try <<'END'
  > RDS RESTART DATA SET (PID ALPHA(10););
  > D DATA SET (X NUMBER(S5,2););
  > SCRIPT
  > A: OPEN UPDATE
  > A: CREATE D
  > A: PUT D X = -999.99
  > A: GET D
  > A: PUT D X = 999.99
  > A: PUT D X = 1000
  > A: PUT D X = 1.005
  > A: GET D
  > END
  1 A DONE
  2 A DONE
  3 A DONE
  4 A DONE X=-999.99
  5 A DONE
  6 A EXCEPTION DATAERROR X
  7 A EXCEPTION DATAERROR X
  8 A DONE X=999.99

Further numbers, texts and truths, and what doesn't fit: a record keeps what it had.

  $ "$DMS" try <<'END'
  > RDS RESTART DATA SET (PID ALPHA(10););
  > D DATA SET (X NUMBER(S5,2); U NUMBER(5,2); W NUMBER(S18); V NUMBER(S18,18); F FIELD(48); E FIELD(3); T ALPHA(5); B BOOLEAN;);
  > SCRIPT
  > A: OPEN UPDATE
  > A: CREATE D
  > A: PUT D X = 250.5, U = -0, W = -999999999999999999, F = 281474976710655, E = 7.0, T = "A""B  ", B = TRUE
  > A: GET D X, U, W, F, E, T, B
  > A: PUT D X = 0, T = NULL
  > A: GET D X, T
  > A: PUT D X = -0.05
  > A: GET D X
  > A: PUT D X = 1.2000
  > A: GET D X
  > A: PUT D U = 1000
  > A: PUT D U = 1.005
  > A: PUT D U = -1
  > A: PUT D V = 1
  > A: PUT D F = 281474976710656
  > A: PUT D T = "ABCDEF"
  > A: GET D U, V, F, T
  > END
  1 A DONE
  2 A DONE
  3 A DONE
  4 A DONE X=250.50, U=0.00, W=-999999999999999999, F=281474976710655, E=7, T="A""B", B=TRUE
  5 A DONE
  6 A DONE X=0.00, T=NULL
  7 A DONE
  8 A DONE X=-0.05
  9 A DONE
  10 A DONE X=1.20
  11 A EXCEPTION DATAERROR U
  12 A EXCEPTION DATAERROR U
  13 A EXCEPTION DATAERROR U
  14 A EXCEPTION DATAERROR V
  15 A EXCEPTION DATAERROR F
  16 A EXCEPTION DATAERROR T
  17 A DONE U=0.00, V=NULL, F=281474976710655, T=NULL
