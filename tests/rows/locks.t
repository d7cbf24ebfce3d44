Two programs that lock two records in different orders. The one that would close the circle is answered DEADLOCK and loses its locks, so the
other one goes on.

  $ "$DMS" try <<'END'
  > RDS RESTART DATA SET (PID ALPHA(10););
  > D DATA SET (X NUMBER(4););
  > SCRIPT
  > A: OPEN UPDATE
  > A: BEGIN-TRANSACTION NO-AUDIT RDS
  > A: CREATE D
  > A: PUT D X = 1
  > A: STORE D
  > A: CREATE D
  > A: PUT D X = 2
  > A: STORE D
  > A: END-TRANSACTION NO-AUDIT RDS
  > B: OPEN UPDATE
  > A: BEGIN-TRANSACTION NO-AUDIT RDS
  > B: BEGIN-TRANSACTION NO-AUDIT RDS
  > A: LOCK FIRST D
  > B: LOCK LAST D
  > A: LOCK LAST D
  > B: LOCK FIRST D
  > B: END-TRANSACTION NO-AUDIT RDS
  > END
  1 A DONE
  2 A DONE
  3 A DONE
  4 A DONE
  5 A DONE
  6 A DONE
  7 A DONE
  8 A DONE
  9 A DONE
  10 B DONE
  11 A DONE
  12 B DONE
  13 A DONE
  14 B DONE
  15 A WAITS FOR B
  16 B EXCEPTION DEADLOCK D
  15 A DONE
  17 B DONE

A program outside transaction state may hold a lock, so a BEGIN-TRANSACTION closes a circle too: it waits for B, and B for its lock. The
answer names the restart data set.

  $ "$DMS" try <<'END'
  > RDS RESTART DATA SET (PID ALPHA(10););
  > D DATA SET (X NUMBER(4););
  > SCRIPT
  > A: OPEN UPDATE
  > A: BEGIN-TRANSACTION NO-AUDIT RDS
  > A: CREATE D
  > A: STORE D
  > A: END-TRANSACTION NO-AUDIT RDS
  > B: OPEN UPDATE
  > C: OPEN UPDATE
  > A: LOCK FIRST D
  > B: BEGIN-TRANSACTION NO-AUDIT RDS
  > C: BEGIN-TRANSACTION NO-AUDIT RDS
  > C: END-TRANSACTION NO-AUDIT RDS SYNC
  > B: LOCK FIRST D
  > A: BEGIN-TRANSACTION NO-AUDIT RDS
  > A: FREE D
  > END
  1 A DONE
  2 A DONE
  3 A DONE
  4 A DONE
  5 A DONE
  6 B DONE
  7 C DONE
  8 A DONE
  9 B DONE
  10 C DONE
  11 C DONE
  12 B WAITS FOR A
  13 A EXCEPTION DEADLOCK RDS
  12 B DONE
  14 A DONE

A circle of three programs, closed by the third. A wait that makes none is no DEADLOCK: D waits for A too.

  $ "$DMS" try <<'END'
  > RDS RESTART DATA SET (PID ALPHA(10););
  > N DATA SET (X NUMBER(4););
  > N-SET SET OF N KEY IS X;
  > SCRIPT
  > A: OPEN UPDATE
  > B: OPEN UPDATE
  > C: OPEN UPDATE
  > D: OPEN UPDATE
  > A: BEGIN-TRANSACTION NO-AUDIT RDS
  > A: CREATE N
  > A: PUT N X = 1
  > A: STORE N
  > A: CREATE N
  > A: PUT N X = 2
  > A: STORE N
  > A: CREATE N
  > A: PUT N X = 3
  > A: STORE N
  > A: END-TRANSACTION NO-AUDIT RDS
  > A: BEGIN-TRANSACTION NO-AUDIT RDS
  > B: BEGIN-TRANSACTION NO-AUDIT RDS
  > C: BEGIN-TRANSACTION NO-AUDIT RDS
  > D: BEGIN-TRANSACTION NO-AUDIT RDS
  > A: LOCK N-SET AT X = 1
  > B: LOCK N-SET AT X = 2
  > C: LOCK N-SET AT X = 3
  > D: LOCK N-SET AT X = 1
  > A: LOCK N-SET AT X = 2
  > B: LOCK N-SET AT X = 3
  > C: LOCK N-SET AT X = 1
  > C: STORE N
  > C: GET N
  > B: END-TRANSACTION NO-AUDIT RDS
  > A: END-TRANSACTION NO-AUDIT RDS
  > D: GET N
  > END
  1 A DONE
  2 B DONE
  3 C DONE
  4 D DONE
  5 A DONE
  6 A DONE
  7 A DONE
  8 A DONE
  9 A DONE
  10 A DONE
  11 A DONE
  12 A DONE
  13 A DONE
  14 A DONE
  15 A DONE
  16 A DONE
  17 B DONE
  18 C DONE
  19 D DONE
  20 A DONE
  21 B DONE
  22 C DONE
  23 D WAITS FOR A
  24 A WAITS FOR B
  25 B WAITS FOR C
  26 C EXCEPTION DEADLOCK N
  25 B DONE
  27 C EXCEPTION NOTLOCKED N
  28 C DONE X=3
  29 B DONE
  24 A DONE
  30 A DONE
  23 D DONE
  31 D DONE X=1

STORE of a record of an earlier transaction needs its lock. FIND gives none, and LOCK, or MODIFY, which is the same, does. FREE in
transaction state frees nothing.

  $ "$DMS" try <<'END'
  > RDS RESTART DATA SET (PID ALPHA(10););
  > D DATA SET (X NUMBER(4); Y NUMBER(4););
  > D-SET SET OF D KEY IS X;
  > SCRIPT
  > A: OPEN UPDATE
  > B: OPEN UPDATE
  > A: BEGIN-TRANSACTION NO-AUDIT RDS
  > A: CREATE D
  > A: PUT D X = 1, Y = 10
  > A: STORE D
  > A: END-TRANSACTION NO-AUDIT RDS
  > A: BEGIN-TRANSACTION NO-AUDIT RDS
  > A: FIND D-SET AT X = 1
  > A: PUT D Y = 11
  > A: STORE D
  > A: MODIFY CURRENT D
  > A: PUT D Y = 11
  > A: STORE D
  > A: FREE D
  > B: LOCK D-SET AT X = 1
  > B: GET D
  > A: PUT D Y = 12
  > A: STORE D
  > A: END-TRANSACTION NO-AUDIT RDS
  > A: STORE D
  > B: STORE D
  > B: BEGIN-TRANSACTION NO-AUDIT RDS
  > B: STORE D
  > B: GET D
  > END
  1 A DONE
  2 B DONE
  3 A DONE
  4 A DONE
  5 A DONE
  6 A DONE
  7 A DONE
  8 A DONE
  9 A DONE
  10 A DONE
  11 A EXCEPTION NOTLOCKED D
  12 A DONE
  13 A DONE
  14 A DONE
  15 A DONE
  16 B WAITS FOR A
  18 A DONE
  19 A DONE
  20 A DONE
  16 B DONE
  17 B DONE X=1, Y=12
  21 A EXCEPTION AUDITERROR A
  22 B EXCEPTION AUDITERROR B
  23 B DONE
  24 B DONE
  25 B DONE X=1, Y=12

Outside transaction state a program holds at most one lock in a data set: a LOCK frees the one before, FIND, FREE, CREATE and CLOSE free it. A
program that opened for inquiry may lock.

  $ "$DMS" try <<'END'
  > RDS RESTART DATA SET (PID ALPHA(10););
  > D DATA SET (X NUMBER(4););
  > D-SET SET OF D KEY IS X;
  > SCRIPT
  > A: OPEN UPDATE
  > A: BEGIN-TRANSACTION NO-AUDIT RDS
  > A: CREATE D
  > A: PUT D X = 1
  > A: STORE D
  > A: CREATE D
  > A: PUT D X = 2
  > A: STORE D
  > A: END-TRANSACTION NO-AUDIT RDS
  > B: OPEN INQUIRY
  > A: LOCK D-SET AT X = 1
  > B: LOCK D-SET AT X = 1
  > A: LOCK D-SET AT X = 2
  > A: LOCK D-SET AT X = 1
  > B: FIND D-SET AT X = 2
  > A: CREATE D
  > B: LOCK D-SET AT X = 1
  > A: LOCK D-SET AT X = 1
  > B: FREE D
  > B: LOCK D-SET AT X = 1
  > A: CLOSE
  > B: CLOSE
  > A: OPEN INQUIRY
  > A: LOCK D-SET AT X = 1
  > A: FREE RDS
  > A: LOCK CURRENT RDS
  > A: LOCK D-SET AT X = 3
  > A: STORE D
  > END
  1 A DONE
  2 A DONE
  3 A DONE
  4 A DONE
  5 A DONE
  6 A DONE
  7 A DONE
  8 A DONE
  9 A DONE
  10 B DONE
  11 A DONE
  12 B WAITS FOR A
  13 A DONE
  12 B DONE
  14 A WAITS FOR B
  15 B DONE
  14 A DONE
  16 A DONE
  17 B DONE
  18 A WAITS FOR B
  19 B DONE
  18 A DONE
  20 B WAITS FOR A
  21 A DONE
  20 B DONE
  22 B DONE
  23 A DONE
  24 A DONE
  25 A EXCEPTION NORECORD RDS
  26 A EXCEPTION NORECORD RDS
  27 A EXCEPTION NOTFOUND D-SET
  28 A EXCEPTION READONLY A

A lock that is taken outside transaction state is kept within it, and an END-TRANSACTION frees it. The lines of a program that waits are held
behind its waiting line, and what still waits at the end is said to be unanswered.

  $ "$DMS" try <<'END'
  > RDS RESTART DATA SET (PID ALPHA(10););
  > D DATA SET (X NUMBER(4););
  > SCRIPT
  > A: OPEN UPDATE
  > B: OPEN UPDATE
  > C: OPEN UPDATE
  > A: BEGIN-TRANSACTION NO-AUDIT RDS
  > A: CREATE D
  > A: PUT D X = 1
  > A: STORE D
  > A: END-TRANSACTION NO-AUDIT RDS
  > A: LOCK FIRST D
  > A: BEGIN-TRANSACTION NO-AUDIT RDS
  > A: PUT D X = 2
  > A: STORE D
  > C: LOCK FIRST D
  > B: LOCK FIRST D
  > B: GET D
  > C: GET D
  > A: END-TRANSACTION NO-AUDIT RDS
  > C: BEGIN-TRANSACTION NO-AUDIT RDS
  > B: OPEN UPDATE
  > END
  1 A DONE
  2 B DONE
  3 C DONE
  4 A DONE
  5 A DONE
  6 A DONE
  7 A DONE
  8 A DONE
  9 A DONE
  10 A DONE
  11 A DONE
  12 A DONE
  13 C WAITS FOR A
  14 B WAITS FOR A
  17 A DONE
  13 C DONE
  16 C DONE X=2
  18 C DONE
  14 B UNANSWERED
  15 B UNANSWERED
  19 B UNANSWERED

A back-out frees the locks of each program that carried out a verb since the last quiet point. C carried out none: it keeps its lock and owes
nothing. A line that waits is tried again, and answered ABORT where its program owes one.

  $ "$DMS" try <<'END'
  > RDS RESTART DATA SET (PID ALPHA(10););
  > D DATA SET (X NUMBER(4););
  > D-SET SET OF D KEY IS X;
  > SCRIPT
  > A: OPEN UPDATE
  > B: OPEN UPDATE
  > C: OPEN UPDATE
  > A: BEGIN-TRANSACTION NO-AUDIT RDS
  > A: CREATE D
  > A: PUT D X = 1
  > A: STORE D
  > A: CREATE D
  > A: PUT D X = 2
  > A: STORE D
  > A: END-TRANSACTION NO-AUDIT RDS
  > C: LOCK D-SET AT X = 2
  > A: BEGIN-TRANSACTION NO-AUDIT RDS
  > A: END-TRANSACTION NO-AUDIT RDS
  > A: BEGIN-TRANSACTION NO-AUDIT RDS
  > A: LOCK D-SET AT X = 1
  > A: PUT D X = 3
  > A: STORE D
  > B: FIND FIRST D
  > B: LOCK D-SET AT X = 3
  > A: ABORT-TRANSACTION RDS
  > B: LOCK D-SET AT X = 1
  > A: LOCK D-SET AT X = 2
  > C: GET D
  > C: CLOSE
  > A: GET D
  > END
  1 A DONE
  2 B DONE
  3 C DONE
  4 A DONE
  5 A DONE
  6 A DONE
  7 A DONE
  8 A DONE
  9 A DONE
  10 A DONE
  11 A DONE
  12 C DONE
  13 A DONE
  14 A DONE
  15 A DONE
  16 A DONE
  17 A DONE
  18 A DONE
  19 B DONE
  20 B WAITS FOR A
  21 A DONE
  20 B EXCEPTION ABORT B
  22 B DONE
  23 A WAITS FOR C
  24 C DONE X=2
  25 C DONE
  23 A DONE
  26 A DONE X=2

A record is locked by its number, whatever becomes of its key. A line that waits is tried again after each answer, and finds what is there by
then.

  $ "$DMS" try <<'END'
  > RDS RESTART DATA SET (PID ALPHA(10););
  > D DATA SET (X NUMBER(4););
  > D-SET SET OF D KEY IS X;
  > SCRIPT
  > A: OPEN UPDATE
  > B: OPEN UPDATE
  > A: BEGIN-TRANSACTION NO-AUDIT RDS
  > A: CREATE D
  > A: PUT D X = 1
  > A: STORE D
  > A: END-TRANSACTION NO-AUDIT RDS
  > A: BEGIN-TRANSACTION NO-AUDIT RDS
  > A: LOCK FIRST D
  > B: LOCK D-SET AT X = 1
  > A: PUT D X = 5
  > A: STORE D
  > B: LOCK D-SET AT X = 5
  > A: END-TRANSACTION NO-AUDIT RDS
  > B: GET D
  > END
  1 A DONE
  2 B DONE
  3 A DONE
  4 A DONE
  5 A DONE
  6 A DONE
  7 A DONE
  8 A DONE
  9 A DONE
  10 B WAITS FOR A
  11 A DONE
  12 A DONE
  10 B EXCEPTION NOTFOUND D-SET
  13 B WAITS FOR A
  14 A DONE
  13 B DONE
  15 B DONE X=5
