A dump of a database on disk, and what is no statement.

  $ mkdir db && cd db
  $ echo 'DUMP TO 1' | "$DMS" utility
  dms: no database
  dms: go to the folder of a database, or make one by dms compile and dms initialize
  [3]
  $ ls
  $ "$DMS" compile <<'END'
  > RDS RESTART DATA SET (PID ALPHA(10););
  > D DATA SET (X NUMBER(4););
  > END
  COMPILED 2 STRUCTURES
  $ "$DMS" initialize
  INITIALIZED AT POINT 0
  $ { echo 'A: OPEN UPDATE'
  >   for x in 1 2 3 4 5; do
  >     echo 'A: BEGIN-TRANSACTION NO-AUDIT RDS'
  >     echo 'A: CREATE D'
  >     echo "A: PUT D X = $x"
  >     echo 'A: STORE D'
  >     echo 'A: END-TRANSACTION NO-AUDIT RDS'
  >   done; } | "$DMS" run | tail -n 1
  26 A DONE
  $ echo 'DUMP TO 1' | "$DMS" utility
  DUMPED 1 AT POINT 5
  $ ls
  F00001.DMS
  F10001.DMS
  F20001.DMS
  F30002.DMS
  $ head -c 5 F20001.DMS | od -An -c
   001   D   M   S   D

A statement may have a semicolon, blanks and comments, and small letters.

  $ printf 'dump %% a copy\n  to 0002 ;\n' | "$DMS" utility
  DUMPED 2 AT POINT 5

A dump that is there already isn't written over, and no other file changes.

  $ cksum F*.DMS > ../before
  $ echo 'DUMP TO 1' | "$DMS" utility
  dms: exists already
  dms: that dump is there; name another number, or remove its file first
  [11]
  $ cksum F*.DMS | cmp - ../before

What is no statement is bad at its first bad place, and nothing is done.

  $ for statement in '' 'DUMP' 'DUMP 1' 'DUMP TO 0' 'DUMP TO 10000' 'DUMP TO 3 4' 'DUMP TO 3;;' 'COPY TO 3' '"DUMP'; do
  >   echo "$statement" | "$DMS" utility 2>&1 | head -n 1
  > done
  dms: bad statement at 2
  dms: bad statement at 6
  dms: bad statement at 6
  dms: bad statement at 9
  dms: bad statement at 9
  dms: bad statement at 11
  dms: bad statement at 11
  dms: bad statement at 1
  dms: bad statement at 1
  $ head -c 10001 /dev/zero | tr '\0' ' ' | "$DMS" utility 2>&1 | head -n 1
  dms: bad statement at 10001
  $ cksum F*.DMS | cmp - ../before

A structure file that ends too early is refused before anything is written, where its block isn't in the audit since the last control point.

  $ printf 'A: OPEN UPDATE\nA: BEGIN-TRANSACTION NO-AUDIT RDS\nA: END-TRANSACTION NO-AUDIT RDS\n' | "$DMS" run | tail -n 1
  3 A DONE
  $ cp F30002.DMS ../D
  $ truncate -s 1000 F30002.DMS
  $ cksum F*.DMS > ../short
  $ echo 'DUMP TO 3' | "$DMS" utility
  dms: file 30002 block 0 damaged
  dms: F30002.DMS of D is missing or too short: rebuild from a dump, or put the file back
  [9]
  $ cksum F*.DMS | cmp - ../short
  $ cp ../D F30002.DMS
  $ echo 'DUMP TO 3' | "$DMS" utility
  DUMPED 3 AT POINT 6
