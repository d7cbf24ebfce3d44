The audit has as many files as the schema says. Here are two of eight blocks each: the description and its control point are block 1, the opening
takes 2 and 3, and each syncpoint one more.

  $ mkdir db && cd db
  $ "$DMS" compile <<'END'
  > PARAMETERS (CONTROLPOINT = 10000 SYNCPOINTS);
  > AUDIT TRAIL (BLOCKS = 8, FILES = 2);
  > RDS RESTART DATA SET (PID ALPHA(10););
  > D DATA SET (X NUMBER(4););
  > END
  COMPILED 2 STRUCTURES
  $ cd .. && cp -r db stores && cp -r db again && cd db
  $ "$DMS" initialize
  INITIALIZED AT POINT 0
  $ { echo 'A: OPEN UPDATE'; for n in $(seq 14); do echo 'A: BEGIN-TRANSACTION NO-AUDIT RDS'; echo 'A: END-TRANSACTION NO-AUDIT RDS SYNC'; done; } > ../script
  $ "$DMS" run < ../script > ../out
  dms: audit file 2 full
  dms: bring its records over to a new database; docs/GUIDE.md, A full audit
  [8]
  $ tail -n 3 ../out
  27 A DONE
  SYNCPOINT 13
  28 A DONE
  $ "$DMS" print audit | tail -n 2
  2 7 QUIET 12
  2 8 QUIET 13

The database can be asked, and recovers: a restore and the closing control point may go on in further files.

  $ "$DMS" run <<'END'
  > A: OPEN INQUIRY
  > END
  1 A DONE
  $ "$DMS" print audit | tail -n 5
  3 1 BEGIN 13 HALTLOAD
  3 2 SCHEMA 1 OF 1 LENGTH 62
  3 2 CONTROL 13 NEXT 14
  3 3 SCHEMA 1 OF 1 LENGTH 62
  3 3 CONTROL 13 NEXT 14

It can't be changed any more. A transaction may begin, and what needs a block of the audit fails.

  $ "$DMS" run < ../script
  1 A DONE
  2 A DONE
  dms: audit file 2 full
  dms: bring its records over to a new database; docs/GUIDE.md, A full audit
  [8]
  $ "$DMS" run < /dev/null
  $ "$DMS" print audit | tail -n 1 | cut -d' ' -f3-
  CONTROL 13 NEXT 14

So a transaction can be taken back: a back-out may go on there, too.

  $ "$DMS" run <<'END'
  > A: OPEN UPDATE
  > A: BEGIN-TRANSACTION NO-AUDIT RDS
  > A: ABORT-TRANSACTION RDS
  > END
  1 A DONE
  2 A DONE
  3 A DONE
  $ "$DMS" print audit | tail -n 5 | cut -d' ' -f3-
  BEGIN 13 BACKOUT
  SCHEMA 1 OF 1 LENGTH 62
  CONTROL 13 NEXT 14
  SCHEMA 1 OF 1 LENGTH 62
  CONTROL 13 NEXT 14

Nothing is written through: with a store in each transaction the file of D isn't there before a control point, since the pool has room.

  $ cd ../stores
  $ "$DMS" initialize
  INITIALIZED AT POINT 0
  $ { echo 'A: OPEN UPDATE'; for n in $(seq 14); do echo 'A: BEGIN-TRANSACTION NO-AUDIT RDS'; echo 'A: CREATE D'; echo 'A: STORE D'; echo 'A: END-TRANSACTION NO-AUDIT RDS SYNC'; done; } > ../script
  $ "$DMS" run < ../script > ../out
  dms: audit file 2 full
  dms: bring its records over to a new database; docs/GUIDE.md, A full audit
  [8]
  $ tail -n 4 ../out
  53 A DONE
  SYNCPOINT 13
  54 A DONE
  55 A DONE
  $ ls
  F00001.DMS
  F10001.DMS
  F10002.DMS
  F10003.DMS
  $ "$DMS" print audit | tail -n 3
  2 7 QUIET 12
  2 8 RANGE 30002 0 AT 264 LENGTH 22
  2 8 QUIET 13

The next run writes it. All thirteen records are there.

  $ "$DMS" run <<'END'
  > A: OPEN INQUIRY
  > A: FIND LAST D
  > END
  1 A DONE
  2 A DONE
  $ "$DMS" print audit | tail -n 1
  3 3 CONTROL 13 NEXT 14
  $ stat -c '%n %s' F3*.DMS
  F30002.DMS 1024
  $ od -An -v -tx1 -w22 -N286 F30002.DMS | cut -c1-15 | uniq -c | tr -s ' '
   13 01 00 00 00 00

A STORE that changes nothing needs no room. With one block left a record is stored, which takes 1,034 of its 4,094 bytes, then with X = 1, which takes
22, and then with 217 other values, of which each differs in one byte and takes 14: that fills it. As it stands the record is stored once more, and with
one more value it isn't.

  $ cd ../again
  $ "$DMS" initialize
  INITIALIZED AT POINT 0
  $ { echo 'A: OPEN UPDATE'; for n in $(seq 12); do echo 'A: BEGIN-TRANSACTION NO-AUDIT RDS'; echo 'A: END-TRANSACTION NO-AUDIT RDS SYNC'; done; } > ../script
  $ { echo 'A: BEGIN-TRANSACTION NO-AUDIT RDS'; echo 'A: CREATE D'; echo 'A: STORE D'; } >> ../script
  $ for n in $(seq 218); do echo "A: PUT D X = $n"; echo 'A: STORE D'; done >> ../script
  $ { echo 'A: STORE D'; echo 'A: PUT D X = 219'; echo 'A: STORE D'; } >> ../script
  $ "$DMS" run < ../script > ../out
  dms: audit file 2 full
  dms: bring its records over to a new database; docs/GUIDE.md, A full audit
  [8]
  $ tail -n 3 ../out
  464 A DONE
  465 A DONE
  466 A DONE
  $ "$DMS" print audit | sed -n 's/^2 8 //p' | uniq -c | tr -s ' '
   1 IMAGE 30002 0 NEW
   1 RANGE 30002 0 AT 13 LENGTH 9
   217 RANGE 30002 0 AT 21 LENGTH 1

A control point that is due goes no further here. With one behind each syncpoint, each takes two blocks: the seventh quiet point is in the last block
of file 2, and the control point behind it would be in file 3. That line isn't answered, and the next run finds its point.

  $ mkdir ../due && cd ../due
  $ "$DMS" compile <<'END'
  > PARAMETERS (CONTROLPOINT = 1 SYNCPOINTS);
  > AUDIT TRAIL (BLOCKS = 8, FILES = 2);
  > RDS RESTART DATA SET (PID ALPHA(10););
  > D DATA SET (X NUMBER(4););
  > END
  COMPILED 2 STRUCTURES
  $ "$DMS" initialize
  INITIALIZED AT POINT 0
  $ { echo 'A: OPEN UPDATE'; for n in $(seq 8); do echo 'A: BEGIN-TRANSACTION NO-AUDIT RDS'; echo 'A: END-TRANSACTION NO-AUDIT RDS SYNC'; done; } > ../script
  $ "$DMS" run < ../script > ../out
  dms: audit file 2 full
  dms: bring its records over to a new database; docs/GUIDE.md, A full audit
  [8]
  $ tail -n 2 ../out
  SYNCPOINT 6
  14 A DONE
  $ "$DMS" print audit | tail -n 4
  2 6 QUIET 6
  2 7 SCHEMA 1 OF 1 LENGTH 62
  2 7 CONTROL 6 NEXT 7
  2 8 QUIET 7
  $ "$DMS" run < /dev/null
  $ "$DMS" print audit | tail -n 5
  3 1 BEGIN 7 HALTLOAD
  3 2 SCHEMA 1 OF 1 LENGTH 62
  3 2 CONTROL 7 NEXT 8
  3 3 SCHEMA 1 OF 1 LENGTH 62
  3 3 CONTROL 7 NEXT 8
