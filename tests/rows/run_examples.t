The first database of the page at the top: made, and run twice. Each run adds a note.

  $ mkdir db && cd db
  $ "$DMS" compile < "$TESTDIR/../../examples/notes.schema"
  COMPILED 2 STRUCTURES
  $ "$DMS" initialize
  INITIALIZED AT POINT 0
  $ "$DMS" run < "$TESTDIR/../../examples/notes.script"
  1 A DONE
  2 A DONE
  3 A DONE
  4 A DONE
  5 A DONE
  6 A DONE
  SYNCPOINT 1
  7 A DONE
  8 A DONE TEXT="HELLO"
  $ "$DMS" run < "$TESTDIR/../../examples/notes.script" | grep SYNCPOINT
  SYNCPOINT 2

The same of the guide's short one.

  $ mkdir ../two && cd ../two
  $ head -n 3 "$TESTDIR/../../examples/sharing.dms" | "$DMS" compile
  COMPILED 2 STRUCTURES
  $ "$DMS" initialize
  INITIALIZED AT POINT 0
  $ "$DMS" run <<'END'
  > A: OPEN UPDATE
  > A: BEGIN-TRANSACTION NO-AUDIT RDS
  > A: CREATE D
  > A: PUT D X = 1
  > A: STORE D
  > A: END-TRANSACTION NO-AUDIT RDS SYNC
  > END
  1 A DONE
  2 A DONE
  3 A DONE
  4 A DONE
  5 A DONE
  6 A DONE
  SYNCPOINT 1
  $ "$DMS" run <<'END'
  > A: OPEN INQUIRY
  > A: FIND FIRST D
  > A: GET D
  > END
  1 A DONE
  2 A DONE
  3 A DONE X=1

The library of the guide: links, records within records, and a manual subset.

  $ mkdir ../library && cd ../library
  $ "$DMS" compile < "$TESTDIR/../../examples/library.schema"
  COMPILED 8 STRUCTURES
  $ "$DMS" initialize
  INITIALIZED AT POINT 0
  $ "$DMS" run < "$TESTDIR/../../examples/library.script"
  1 A DONE
  2 A DONE
  3 A DONE
  4 A DONE
  5 A DONE
  6 A DONE
  7 A DONE
  8 A DONE
  9 A DONE
  10 A DONE
  11 A DONE
  12 A DONE
  13 A DONE
  14 A DONE
  15 A DONE
  SYNCPOINT 1
  16 A DONE
  17 A DONE
  18 A DONE DAY=20260105, AMOUNT=0.50
  19 A DONE
  20 A DONE
  21 A DONE MNO=7, NAME="ANN LEE", FAVOURITE=1
  22 A DONE
  23 A DONE
  24 A EXCEPTION INUSE BOOK
  25 A DONE
  26 A DONE
  27 A DONE FAVOURITE=NULL
  28 A DONE
