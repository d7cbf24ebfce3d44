Behind the same lines: a key that isn't there, and a second record with an equal key.

  $ "$DMS" try <<'END'
  > RDS RESTART DATA SET (PID NUMBER(4););
  > D DATA SET (X NUMBER(4););
  > D-SET SET OF D KEY IS X;
  > SCRIPT
  > A: OPEN UPDATE
  > A: BEGIN-TRANSACTION NO-AUDIT RDS
  > A: CREATE D
  > A: PUT D X = 5
  > A: STORE D
  > A: END-TRANSACTION NO-AUDIT RDS
  > A: FIND D-SET AT X = 5
  > A: GET D
  > A: FIND D-SET AT X = 6
  > A: BEGIN-TRANSACTION NO-AUDIT RDS
  > A: CREATE D
  > A: PUT D X = 5
  > A: STORE D
  > END
  1 A DONE
  2 A DONE
  3 A DONE
  4 A DONE
  5 A DONE
  6 A DONE
  7 A DONE
  8 A DONE X=5
  9 A EXCEPTION NOTFOUND D-SET
  10 A DONE
  11 A DONE
  12 A DONE
  13 A EXCEPTION DUPLICATES D-SET
