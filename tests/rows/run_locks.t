Locks, waits and positions over a database on disk. The records that are locked and changed were stored by an earlier run.

  $ mkdir db && cd db
  $ "$DMS" compile <<'END'
  > RDS RESTART DATA SET (PID ALPHA(10););
  > D DATA SET (X NUMBER(4); Y NUMBER(4););
  > D-SET SET OF D KEY IS X;
  > END
  COMPILED 3 STRUCTURES
  $ "$DMS" initialize
  INITIALIZED AT POINT 0
  $ "$DMS" run <<'END'
  > A: OPEN UPDATE
  > A: BEGIN-TRANSACTION NO-AUDIT RDS
  > A: CREATE D
  > A: PUT D X = 1, Y = 1
  > A: STORE D
  > A: CREATE D
  > A: PUT D X = 2, Y = 2
  > A: STORE D
  > A: CREATE D
  > A: PUT D X = 3, Y = 3
  > A: STORE D
  > A: END-TRANSACTION NO-AUDIT RDS SYNC
  > END
  1 A DONE
  2 A DONE
  3 A DONE
  4 A DONE
  5 A DONE
  6 A DONE
  7 A DONE
  8 A DONE
  9 A DONE
  10 A DONE
  11 A DONE
  12 A DONE
  SYNCPOINT 1

Two programs lock two records in different orders; B loses its locks, and A goes on. No position of the run before is left.

  $ "$DMS" run <<'END'
  > A: OPEN UPDATE
  > B: OPEN UPDATE
  > A: FIND PRIOR D-SET
  > A: BEGIN-TRANSACTION NO-AUDIT RDS
  > B: BEGIN-TRANSACTION NO-AUDIT RDS
  > A: LOCK NEXT D-SET
  > B: LOCK LAST D-SET
  > A: LOCK D-SET AT X = 3
  > B: LOCK D-SET AT X = 1
  > B: STORE D
  > B: END-TRANSACTION NO-AUDIT RDS
  > A: PUT D X = 5
  > A: STORE D
  > B: LOCK D-SET AT X = 5
  > A: FIND PRIOR D-SET
  > A: GET D
  > A: END-TRANSACTION NO-AUDIT RDS SYNC
  > B: GET D
  > B: FIND NEXT D-SET
  > B: FIND PRIOR D-SET
  > B: GET D
  > END
  1 A DONE
  2 B DONE
  3 A EXCEPTION NOTFOUND D-SET
  4 A DONE
  5 B DONE
  6 A DONE
  7 B DONE
  8 A WAITS FOR B
  9 B EXCEPTION DEADLOCK D
  8 A DONE
  10 B EXCEPTION NOTLOCKED D
  11 B DONE
  12 A DONE
  13 A DONE
  14 B WAITS FOR A
  15 A DONE
  16 A DONE X=2, Y=2
  17 A DONE
  SYNCPOINT 2
  14 B DONE
  18 B DONE X=5, Y=3
  19 B EXCEPTION NOTFOUND D-SET
  20 B DONE
  21 B DONE X=2, Y=2

A circle by a BEGIN-TRANSACTION, and a script that ends while a program is in transaction state: what it changed is taken back.

  $ "$DMS" run <<'END'
  > A: OPEN UPDATE
  > B: OPEN UPDATE
  > C: OPEN UPDATE
  > A: LOCK FIRST D
  > B: BEGIN-TRANSACTION NO-AUDIT RDS
  > C: BEGIN-TRANSACTION NO-AUDIT RDS
  > C: END-TRANSACTION NO-AUDIT RDS SYNC
  > B: LOCK FIRST D
  > A: BEGIN-TRANSACTION NO-AUDIT RDS
  > A: FREE D
  > B: PUT D Y = 100
  > B: STORE D
  > A: LOCK FIRST D
  > A: GET D
  > END
  1 A DONE
  2 B DONE
  3 C DONE
  4 A DONE
  5 B DONE
  6 C DONE
  7 C DONE
  8 B WAITS FOR A
  9 A EXCEPTION DEADLOCK RDS
  8 B DONE
  10 A DONE
  11 B DONE
  12 B DONE
  13 A WAITS FOR B
  13 A UNANSWERED
  14 A UNANSWERED
  $ "$DMS" run <<'END'
  > A: OPEN UPDATE
  > A: LOCK FIRST D
  > A: GET D
  > A: FIND LAST D-SET
  > A: GET D
  > END
  1 A DONE
  2 A DONE
  3 A DONE X=1, Y=1
  4 A DONE
  5 A DONE X=5, Y=3

A lock that was taken before a back-out by a program that carried out nothing since the last quiet point.

  $ "$DMS" run <<'END'
  > A: OPEN UPDATE
  > B: OPEN UPDATE
  > B: LOCK D-SET AT X = 1
  > A: BEGIN-TRANSACTION NO-AUDIT RDS
  > A: END-TRANSACTION NO-AUDIT RDS
  > A: BEGIN-TRANSACTION NO-AUDIT RDS
  > A: LOCK D-SET AT X = 2
  > A: PUT D X = 9
  > A: STORE D
  > A: ABORT-TRANSACTION RDS
  > A: FIND NEXT D-SET
  > A: GET D
  > A: LOCK D-SET AT X = 1
  > B: FIND NEXT D-SET
  > B: GET D
  > A: GET D
  > END
  1 A DONE
  2 B DONE
  3 B DONE
  4 A DONE
  5 A DONE
  6 A DONE
  7 A DONE
  8 A DONE
  9 A DONE
  10 A DONE
  11 A DONE
  12 A DONE X=1, Y=1
  13 A WAITS FOR B
  14 B DONE
  13 A DONE
  15 B DONE X=2, Y=2
  16 A DONE X=1, Y=1

The restart record, locked and stored again by each run.

  $ "$DMS" run <<'END'
  > A: OPEN UPDATE
  > A: CREATE RDS
  > A: PUT RDS PID = "A1"
  > A: BEGIN-TRANSACTION AUDIT RDS
  > A: END-TRANSACTION NO-AUDIT RDS SYNC
  > END
  1 A DONE
  2 A DONE
  3 A DONE
  4 A DONE
  5 A DONE
  SYNCPOINT 4
  $ "$DMS" run <<'END'
  > A: OPEN UPDATE
  > A: BEGIN-TRANSACTION NO-AUDIT RDS
  > A: LOCK FIRST RDS
  > A: GET RDS
  > A: PUT RDS PID = "A2"
  > A: END-TRANSACTION AUDIT RDS SYNC
  > A: FIND NEXT RDS
  > A: FIND FIRST RDS
  > A: GET RDS
  > END
  1 A DONE
  2 A DONE
  3 A DONE
  4 A DONE PID="A1"
  5 A DONE
  6 A DONE
  SYNCPOINT 5
  7 A EXCEPTION NOTFOUND RDS
  8 A DONE
  9 A DONE PID="A2"

At most 10,000 lines are held, for a lock too; the one too many prints nothing, and no syncpoint was asked for.

  $ { echo 'A: OPEN UPDATE'
  > echo 'B: OPEN UPDATE'
  > echo 'A: LOCK FIRST D'
  > yes 'B: LOCK FIRST D' | head -n 10000; } > ../input
  $ "$DMS" run < ../input > ../out
  $ wc -l < ../out
  10004
  $ head -n 5 ../out
  1 A DONE
  2 B DONE
  3 A DONE
  4 B WAITS FOR A
  4 B UNANSWERED
  $ echo 'B: GET D' >> ../input
  $ "$DMS" run < ../input
  1 A DONE
  2 B DONE
  3 A DONE
  4 B WAITS FOR A
  dms: too many held lines
  dms: look what was carried out, and divide the rest of the script
  [8]
