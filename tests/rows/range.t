A block that changes again since the last control point is logged by the bytes that differ.

  $ mkdir db && cd db
  $ "$DMS" compile <<'END'
  > PARAMETERS (CONTROLPOINT = 2 SYNCPOINTS);
  > RDS RESTART DATA SET (PID ALPHA(10););
  > D DATA SET (X NUMBER(4););
  > D-SET SET OF D KEY IS X;
  > END
  COMPILED 3 STRUCTURES
  $ "$DMS" initialize
  INITIALIZED AT POINT 0
  $ : > ../before
  $ new() { "$DMS" print audit > ../now; diff ../before ../now | sed '/^[0-9]/d; /SCHEMA/d; s/^> //'; mv ../now ../before; }
  $ new
  1 1 CONTROL 0 NEXT 1

X = 5 and then X = 6, in two transactions: an Image of each block, and then a Range of each that changes again. A slot of D has 22 bytes, and an entry of
D-SET 17, behind 7 bytes of its block, of which the third has the count.

  $ store() { echo 'A: BEGIN-TRANSACTION NO-AUDIT RDS'; echo 'A: CREATE D'; echo "A: PUT D X = $1"; echo 'A: STORE D'; echo "A: END-TRANSACTION NO-AUDIT RDS$2"; }
  $ { echo 'A: OPEN UPDATE'; store 5; store 6; } | "$DMS" run | tail -n 1
  11 A DONE
  $ new
  1 2 BEGIN 0 HALTLOAD
  1 3 CONTROL 0 NEXT 1
  1 4 IMAGE 30003 0 NEW
  1 4 IMAGE 30003 1 NEW
  1 4 IMAGE 30002 0 NEW
  1 4 QUIET 1
  1 4 RANGE 30003 1 AT 2 LENGTH 39
  1 4 RANGE 30002 0 AT 22 LENGTH 22
  1 4 QUIET 2
  1 5 CONTROL 2 NEXT 3

A control point follows each second syncpoint here. The first change of a block after one is an Image again. What is stored as it is gets no entry.

  $ { echo 'A: OPEN UPDATE'; store 7 ' SYNC'; store 8 ' SYNC'; store 9; echo 'A: BEGIN-TRANSACTION NO-AUDIT RDS'; echo 'A: LOCK LAST D'; echo 'A: STORE D'; } > ../script
  $ echo 'A: END-TRANSACTION NO-AUDIT RDS' >> ../script
  $ "$DMS" run < ../script | tail -n 1
  20 A DONE
  $ new
  1 6 BEGIN 2 HALTLOAD
  1 7 CONTROL 2 NEXT 3
  1 8 IMAGE 30003 1 CHANGED
  1 9 IMAGE 30002 0 CHANGED
  1 9 QUIET 3
  1 10 RANGE 30003 1 AT 2 LENGTH 73
  1 10 RANGE 30002 0 AT 66 LENGTH 22
  1 10 QUIET 4
  1 11 CONTROL 4 NEXT 5
  1 12 IMAGE 30003 1 CHANGED
  1 13 IMAGE 30002 0 CHANGED
  1 13 QUIET 5
  1 13 QUIET 6
  1 14 CONTROL 6 NEXT 7
