Two programs that lock two records in different orders, over a new database on disk.

  $ printf 'RDS RESTART DATA SET (PID ALPHA(10););\nD DATA SET (X NUMBER(4););\n' > schema
  $ mkdir one two three
  $ cd one && "$DMS" compile < ../schema && "$DMS" initialize
  COMPILED 2 STRUCTURES
  INITIALIZED AT POINT 0
  $ "$DMS" run <<'END'
  > A: OPEN UPDATE
  > A: BEGIN-TRANSACTION NO-AUDIT RDS
  > A: CREATE D
  > A: PUT D X = 1
  > A: STORE D
  > A: CREATE D
  > A: PUT D X = 2
  > A: STORE D
  > A: END-TRANSACTION NO-AUDIT RDS
  > B: OPEN UPDATE
  > A: BEGIN-TRANSACTION NO-AUDIT RDS
  > B: BEGIN-TRANSACTION NO-AUDIT RDS
  > A: LOCK FIRST D
  > B: LOCK LAST D
  > A: LOCK LAST D
  > B: LOCK FIRST D
  > B: END-TRANSACTION NO-AUDIT RDS
  > END
  1 A DONE
  2 A DONE
  3 A DONE
  4 A DONE
  5 A DONE
  6 A DONE
  7 A DONE
  8 A DONE
  9 A DONE
  10 B DONE
  11 A DONE
  12 B DONE
  13 A DONE
  14 B DONE
  15 A WAITS FOR B
  16 B EXCEPTION DEADLOCK D
  15 A DONE
  17 B DONE

A circle that a BEGIN-TRANSACTION would close.

  $ cd ../two && "$DMS" compile < ../schema && "$DMS" initialize
  COMPILED 2 STRUCTURES
  INITIALIZED AT POINT 0
  $ "$DMS" run <<'END'
  > A: OPEN UPDATE
  > A: BEGIN-TRANSACTION NO-AUDIT RDS
  > A: CREATE D
  > A: STORE D
  > A: END-TRANSACTION NO-AUDIT RDS
  > B: OPEN UPDATE
  > C: OPEN UPDATE
  > A: LOCK FIRST D
  > B: BEGIN-TRANSACTION NO-AUDIT RDS
  > C: BEGIN-TRANSACTION NO-AUDIT RDS
  > C: END-TRANSACTION NO-AUDIT RDS SYNC
  > B: LOCK FIRST D
  > A: BEGIN-TRANSACTION NO-AUDIT RDS
  > A: FREE D
  > END
  1 A DONE
  2 A DONE
  3 A DONE
  4 A DONE
  5 A DONE
  6 B DONE
  7 C DONE
  8 A DONE
  9 B DONE
  10 C DONE
  11 C DONE
  12 B WAITS FOR A
  13 A EXCEPTION DEADLOCK RDS
  12 B DONE
  14 A DONE

Lines that aren't of the script's language, and a program that isn't open.

  $ cd ../three && "$DMS" compile < ../schema && "$DMS" initialize
  COMPILED 2 STRUCTURES
  INITIALIZED AT POINT 0
  $ { head -c 2001 /dev/zero | tr '\0' 'A'; printf '\nA: OPEN UPDATE\n'; } | "$DMS" run
  1 BADLINE 2001
  2 A DONE
  $ echo 'A: FIND X' | "$DMS" run
  1 BADLINE 9
  $ echo 'A: CLOSE' | "$DMS" run
  1 A EXCEPTION OPENERROR A
  $ echo 'A: LOCK FIRST D' | "$DMS" run
  1 A EXCEPTION OPENERROR A
