The history of the guide: what `print audit` prints after each step.

  $ mkdir db && cd db
  $ "$DMS" compile <<'END'
  > RDS RESTART DATA SET (PID ALPHA(10););
  > D DATA SET (X NUMBER(4););
  > END
  COMPILED 2 STRUCTURES
  $ "$DMS" initialize
  INITIALIZED AT POINT 0
  $ : > ../before
  $ new() { "$DMS" print audit > ../now; diff ../before ../now | sed '/^[0-9]/d; s/^> //'; mv ../now ../before; }
  $ new
  1 1 SCHEMA 1 OF 1 LENGTH 62
  1 1 CONTROL 0 NEXT 1

A first run: a transaction with a syncpoint, and one without.

  $ cat > ../first <<'END'
  > A: OPEN UPDATE
  > A: BEGIN-TRANSACTION NO-AUDIT RDS
  > A: CREATE D
  > A: PUT D X = 1
  > A: STORE D
  > A: END-TRANSACTION NO-AUDIT RDS SYNC
  > A: BEGIN-TRANSACTION NO-AUDIT RDS
  > A: CREATE D
  > A: PUT D X = 2
  > A: STORE D
  > A: END-TRANSACTION NO-AUDIT RDS
  > END
  $ "$DMS" run < ../first
  1 A DONE
  2 A DONE
  3 A DONE
  4 A DONE
  5 A DONE
  6 A DONE
  SYNCPOINT 1
  7 A DONE
  8 A DONE
  9 A DONE
  10 A DONE
  11 A DONE
  $ new
  1 2 BEGIN 0 HALTLOAD
  1 3 SCHEMA 1 OF 1 LENGTH 62
  1 3 CONTROL 0 NEXT 1
  1 4 IMAGE 30002 0 NEW
  1 4 QUIET 1
  1 5 RANGE 30002 0 AT 22 LENGTH 22
  1 5 QUIET 2
  1 6 SCHEMA 1 OF 1 LENGTH 62
  1 6 CONTROL 2 NEXT 3

A second run is killed in its second transaction.

  $ sed 's/X = 1$/X = 3/; s/X = 2$/X = 4/' ../first > ../second
  $ mkfifo ../input
  $ : > ../out
  $ "$DMS" run < ../input > ../out &
  $ exec 3> ../input
  $ head -n 10 ../second >&3
  $ for turn in $(seq 600); do grep -qx '10 A DONE' ../out && break; sleep 0.1; done
  $ kill -9 $!
  $ wait $! 2> /dev/null
  [137]
  $ exec 3>&-
  $ cat ../out
  1 A DONE
  2 A DONE
  3 A DONE
  4 A DONE
  5 A DONE
  6 A DONE
  SYNCPOINT 3
  7 A DONE
  8 A DONE
  9 A DONE
  10 A DONE
  $ new
  1 7 BEGIN 2 HALTLOAD
  1 8 SCHEMA 1 OF 1 LENGTH 62
  1 8 CONTROL 2 NEXT 3
  1 9 IMAGE 30002 0 CHANGED
  1 9 QUIET 3

The next run recovers: what the syncpoint covered is there, and the transaction that didn't end isn't.

  $ "$DMS" run <<'END'
  > A: OPEN INQUIRY
  > A: FIND LAST D
  > A: GET D
  > END
  1 A DONE
  2 A DONE
  3 A DONE X=3
  $ new
  1 10 BEGIN 3 HALTLOAD
  1 11 SCHEMA 1 OF 1 LENGTH 62
  1 11 CONTROL 3 NEXT 4
  1 12 SCHEMA 1 OF 1 LENGTH 62
  1 12 CONTROL 3 NEXT 4

A back-out.

  $ "$DMS" run <<'END'
  > A: OPEN UPDATE
  > A: BEGIN-TRANSACTION NO-AUDIT RDS
  > A: CREATE D
  > A: PUT D X = 5
  > A: STORE D
  > A: ABORT-TRANSACTION RDS
  > A: FIND LAST D
  > A: GET D
  > END
  1 A DONE
  2 A DONE
  3 A DONE
  4 A DONE
  5 A DONE
  6 A DONE
  7 A DONE
  8 A DONE X=3
  $ new
  1 13 BEGIN 3 HALTLOAD
  1 14 SCHEMA 1 OF 1 LENGTH 62
  1 14 CONTROL 3 NEXT 4
  1 15 IMAGE 30002 0 CHANGED
  1 16 BEGIN 3 BACKOUT
  1 17 SCHEMA 1 OF 1 LENGTH 62
  1 17 CONTROL 3 NEXT 4
  1 18 SCHEMA 1 OF 1 LENGTH 62
  1 18 CONTROL 3 NEXT 4
