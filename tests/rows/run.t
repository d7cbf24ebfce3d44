A script runs over the database in the current folder, and what it stored is there at the next run.

  $ mkdir db && cd db
  $ "$DMS" compile <<'END'
  > RDS RESTART DATA SET (PID ALPHA(10););
  > D DATA SET (X NUMBER(4););
  > END
  COMPILED 2 STRUCTURES
  $ "$DMS" initialize
  INITIALIZED AT POINT 0

An empty script prints nothing. The opening begins a restore to the last point, and ends it by a control point; the end makes another one.

  $ "$DMS" run < /dev/null
  $ "$DMS" print audit
  1 1 SCHEMA 1 OF 1 LENGTH 62
  1 1 CONTROL 0 NEXT 1
  1 2 BEGIN 0 HALTLOAD
  1 3 SCHEMA 1 OF 1 LENGTH 62
  1 3 CONTROL 0 NEXT 1
  1 4 SCHEMA 1 OF 1 LENGTH 62
  1 4 CONTROL 0 NEXT 1

A transaction begins only behind a syncpoint that is pending.

  $ "$DMS" run <<'END'
  > A: OPEN UPDATE
  > B: OPEN UPDATE
  > C: OPEN UPDATE
  > A: BEGIN-TRANSACTION NO-AUDIT RDS
  > B: BEGIN-TRANSACTION NO-AUDIT RDS
  > A: END-TRANSACTION NO-AUDIT RDS SYNC
  > C: BEGIN-TRANSACTION NO-AUDIT RDS
  > B: END-TRANSACTION NO-AUDIT RDS
  > END
  1 A DONE
  2 B DONE
  3 C DONE
  4 A DONE
  5 B DONE
  6 A DONE
  7 C WAITS FOR B
  8 B DONE
  SYNCPOINT 1
  7 C DONE

C's transaction is open at the end. It is taken back, by a restore to the last point, before the closing control point, and nothing is printed for that.

  $ "$DMS" print audit | tail -n 5 | cut -d' ' -f3-
  BEGIN 1 BACKOUT
  SCHEMA 1 OF 1 LENGTH 62
  CONTROL 1 NEXT 2
  SCHEMA 1 OF 1 LENGTH 62
  CONTROL 1 NEXT 2

One program backs out, and the other one learns of it once. The record is gone, in the next run too.

  $ "$DMS" run <<'END'
  > A: OPEN UPDATE
  > B: OPEN UPDATE
  > A: BEGIN-TRANSACTION NO-AUDIT RDS
  > B: BEGIN-TRANSACTION NO-AUDIT RDS
  > B: CREATE D
  > B: STORE D
  > B: END-TRANSACTION NO-AUDIT RDS
  > A: ABORT-TRANSACTION RDS
  > B: FIND FIRST D
  > B: FIND FIRST D
  > A: ABORT-TRANSACTION RDS
  > END
  1 A DONE
  2 B DONE
  3 A DONE
  4 B DONE
  5 B DONE
  6 B DONE
  7 B DONE
  8 A DONE
  9 B EXCEPTION ABORT B
  10 B EXCEPTION NOTFOUND D
  11 A EXCEPTION AUDITERROR A
  $ "$DMS" print audit | grep -c 'BEGIN 1 BACKOUT'
  2
  $ "$DMS" print audit | tail -n 1 | cut -d' ' -f3-
  CONTROL 1 NEXT 2
  $ "$DMS" run <<'END'
  > A: OPEN INQUIRY
  > A: FIND FIRST D
  > END
  1 A DONE
  2 A EXCEPTION NOTFOUND D

A transaction that ends without a syncpoint is there too where the script came to its end; one that doesn't end isn't.

  $ "$DMS" run <<'END'
  > A: OPEN UPDATE
  > A: BEGIN-TRANSACTION NO-AUDIT RDS
  > A: CREATE D
  > A: PUT D X = 5
  > A: STORE D
  > A: END-TRANSACTION NO-AUDIT RDS
  > A: BEGIN-TRANSACTION NO-AUDIT RDS
  > A: CREATE D
  > A: PUT D X = 6
  > A: STORE D
  > END
  1 A DONE
  2 A DONE
  3 A DONE
  4 A DONE
  5 A DONE
  6 A DONE
  7 A DONE
  8 A DONE
  9 A DONE
  10 A DONE
  $ "$DMS" print audit | tail -n 1 | cut -d' ' -f3-
  CONTROL 2 NEXT 3
  $ "$DMS" run <<'END'
  > A: OPEN INQUIRY
  > A: FIND FIRST D
  > A: GET D
  > A: FIND LAST D
  > A: GET D
  > END
  1 A DONE
  2 A DONE
  3 A DONE X=5
  4 A DONE
  5 A DONE X=5

What one program ended beside a transaction of another one that is open goes with it: there was no quiet point.

  $ "$DMS" run <<'END'
  > A: OPEN UPDATE
  > B: OPEN UPDATE
  > A: BEGIN-TRANSACTION NO-AUDIT RDS
  > B: BEGIN-TRANSACTION NO-AUDIT RDS
  > B: CREATE D
  > B: PUT D X = 7
  > B: STORE D
  > B: END-TRANSACTION NO-AUDIT RDS
  > B: FIND LAST D
  > B: GET D
  > END
  1 A DONE
  2 B DONE
  3 A DONE
  4 B DONE
  5 B DONE
  6 B DONE
  7 B DONE
  8 B DONE
  9 B DONE
  10 B DONE X=7
  $ printf 'A: OPEN INQUIRY\nA: FIND LAST D\nA: GET D\n' | "$DMS" run
  1 A DONE
  2 A DONE
  3 A DONE X=5

A line that is still held at the end is said to be unanswered, and nothing of it is done.

  $ "$DMS" run <<'END'
  > A: OPEN UPDATE
  > B: OPEN UPDATE
  > A: BEGIN-TRANSACTION NO-AUDIT RDS
  > B: BEGIN-TRANSACTION NO-AUDIT RDS
  > A: END-TRANSACTION NO-AUDIT RDS SYNC
  > A: BEGIN-TRANSACTION NO-AUDIT RDS
  > A: CREATE D
  > END
  1 A DONE
  2 B DONE
  3 A DONE
  4 B DONE
  5 A DONE
  6 A WAITS FOR B
  6 A UNANSWERED
  7 A UNANSWERED
  $ "$DMS" print audit | tail -n 1 | cut -d' ' -f3-
  CONTROL 2 NEXT 3

Bad lines, empty ones and comments count as they do in `try`; a schema isn't read here.

  $ "$DMS" run <<'END'
  > D DATA SET (X NUMBER(4););
  > 
  > % a comment
  > A: FIND E
  > A: CLOSE
  > SCRIPT
  > A: open inquiry;
  > END
  1 BADLINE 3
  4 BADLINE 9
  5 A EXCEPTION OPENERROR A
  6 BADLINE 1
  7 A DONE

Sets, subsets, items of each type and the restart record are kept over runs; so are the numbers of records and of points.

  $ mkdir ../people && cd ../people
  $ sed '/^SCRIPT$/,$d' "$TESTDIR/../../examples/people.dms" | "$DMS" compile
  COMPILED 6 STRUCTURES
  $ "$DMS" initialize
  INITIALIZED AT POINT 0
  $ "$DMS" run <<'END'
  > A: OPEN UPDATE
  > A: CREATE RDS
  > A: PUT RDS STEP = 1
  > A: BEGIN-TRANSACTION AUDIT RDS
  > A: CREATE PERSON
  > A: PUT PERSON PNO = 1, NAME = "ANN ""THE"" LEE", WAGE = 1200.5, FLAGS = 5, TOWN = "BERN"
  > A: STORE PERSON
  > A: CREATE PERSON
  > A: PUT PERSON PNO = 2, NAME = "BOB", WAGE = 900
  > A: STORE PERSON
  > A: END-TRANSACTION NO-AUDIT RDS SYNC
  > END
  1 A DONE
  2 A DONE
  3 A DONE
  4 A DONE
  5 A DONE
  6 A DONE
  7 A DONE
  8 A DONE
  9 A DONE
  10 A DONE
  11 A DONE
  SYNCPOINT 1
  $ "$DMS" run <<'END'
  > A: OPEN UPDATE
  > A: FIND BY-NAME AT NAME = "ANN ""THE"" LEE"
  > A: GET PERSON
  > A: FIND FIRST WELL-PAID
  > A: GET PERSON PNO
  > A: FIND FIRST RDS
  > A: GET RDS
  > A: BEGIN-TRANSACTION NO-AUDIT RDS
  > A: CREATE PERSON
  > A: PUT PERSON PNO = 2
  > A: STORE PERSON
  > A: PUT PERSON PNO = 3, NAME = "CAT", WAGE = 5000
  > A: STORE PERSON
  > A: END-TRANSACTION NO-AUDIT RDS SYNC
  > A: FIND FIRST WELL-PAID
  > A: GET PERSON PNO
  > END
  1 A DONE
  2 A DONE
  3 A DONE PNO=1, NAME="ANN ""THE"" LEE", WAGE=1200.50, ACTIVE=TRUE, FLAGS=5, STREET=NULL, TOWN="BERN"
  4 A DONE
  5 A DONE PNO=1
  6 A DONE
  7 A DONE STEP=1
  8 A DONE
  9 A DONE
  10 A DONE
  11 A EXCEPTION DUPLICATES PERSON-SET
  12 A DONE
  13 A DONE
  14 A DONE
  SYNCPOINT 2
  15 A DONE
  16 A DONE PNO=3
