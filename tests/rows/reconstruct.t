Rows of a structure that are made again from a dump: 16 blocks each, whatever they hold.

  $ mkdir db && cd db
  $ "$DMS" compile <<'END'
  > AUDIT TRAIL (BLOCKS = 8, FILES = 100);
  > RDS RESTART DATA SET (PID ALPHA(10););
  > D DATA SET (X NUMBER(4););
  > END
  COMPILED 2 STRUCTURES
  $ "$DMS" initialize
  INITIALIZED AT POINT 0
  $ echo 'DUMP TO 1' | "$DMS" utility
  DUMPED 1 AT POINT 0
  $ { echo 'A: OPEN UPDATE'
  >   for x in $(seq 20); do
  >     echo 'A: BEGIN-TRANSACTION NO-AUDIT RDS'
  >     echo 'A: CREATE D'
  >     echo "A: PUT D X = $x"
  >     echo 'A: STORE D'
  >     echo 'A: END-TRANSACTION NO-AUDIT RDS SYNC'
  >   done; } | "$DMS" run | tail -n 1
  SYNCPOINT 20

The audit has 28 blocks, in files 1 to 4.

  $ "$DMS" print audit | tail -n 1 | cut -d' ' -f1,2
  4 4

A file of the audit is missing, which is behind the one of the dump: no file changes.

  $ mv F10002.DMS ..
  $ cksum F*.DMS > ../before
  $ echo 'RECONSTRUCT D ROW 0 FROM 1' | "$DMS" utility
  dms: audit file 2 missing
  dms: put F10002.DMS back, as it was
  [4]
  $ cksum F*.DMS | cmp - ../before
  $ mv ../F10002.DMS .

The row is overwritten. It comes back as it was at the last point.

  $ cp F30002.DMS ..
  $ head -c "$(wc -c < F30002.DMS)" ../F30002.DMS | tr '\000-\377' '[\377*]' > F30002.DMS
  $ cmp -s F30002.DMS ../F30002.DMS
  [1]
  $ echo 'RECONSTRUCT D ROW 0 FROM 1' | "$DMS" utility
  RECONSTRUCTED AT POINT 20
  $ cmp F30002.DMS ../F30002.DMS
  $ printf 'A: OPEN INQUIRY\nA: FIND LAST D\nA: GET D\n' | "$DMS" run | tail -n 1
  3 A DONE X=20

A row that isn't there comes last of all that is refused, and the first one of the statement is told. D has one block.

  $ cksum F*.DMS > ../before
  $ for statement in 'D ROW 1 FROM 1' 'D ROW 0, E ROW 0, D ROW 1 FROM 1' 'D ROW 1, E ROW 0 FROM 1' 'D ROW 4294967295 FROM 1' 'D ROW 0 FROM 9' 'E ROW 0 FROM 9'; do
  >   echo "RECONSTRUCT $statement" | "$DMS" utility
  >   echo "status $?"
  > done
  dms: no row 1 in D
  dms: name a structure of the schema, and a row below its blocks divided by 16
  status 4
  dms: no row 0 in E
  dms: name a structure of the schema, and a row below its blocks divided by 16
  status 4
  dms: no row 1 in D
  dms: name a structure of the schema, and a row below its blocks divided by 16
  status 4
  dms: no row 4294967295 in D
  dms: name a structure of the schema, and a row below its blocks divided by 16
  status 4
  dms: dump 9 missing
  dms: put F20009.DMS back, as it was, or name another dump
  status 4
  dms: dump 9 missing
  dms: put F20009.DMS back, as it was, or name another dump
  status 4
  $ cksum F*.DMS | cmp - ../before

A row that is named twice, and a 101st one, are bad at their places.

  $ echo 'RECONSTRUCT D ROW 0, D ROW 0 FROM 1' | "$DMS" utility 2>&1 | head -n 1
  dms: bad statement at 22
  $ { printf 'RECONSTRUCT'; for r in $(seq 0 99); do printf ' D ROW %d,' $r; done; echo ' D ROW 100 FROM 1'; } | "$DMS" utility 2>&1 | head -n 1
  dms: bad statement at 1003

The blocks of other rows are left to the rule of an opening: they stay, or what is behind their last control point is written again.

  $ { echo 'A: OPEN UPDATE'
  >   for turn in $(seq 16); do
  >     echo 'A: BEGIN-TRANSACTION NO-AUDIT RDS'
  >     for n in $(seq 46); do echo 'A: CREATE D'; echo "A: PUT D X = $turn"; echo 'A: STORE D'; done
  >     echo 'A: END-TRANSACTION NO-AUDIT RDS'
  >   done; } | "$DMS" run | tail -n 1
  2241 A DONE
  $ cp F30002.DMS ..
  $ printf '\377' | dd of=F30002.DMS bs=1 seek=17000 conv=notrunc 2> /dev/null
  $ echo 'RECONSTRUCT D ROW 1 FROM 1' | "$DMS" utility
  RECONSTRUCTED AT POINT 36
  $ cmp F30002.DMS ../F30002.DMS
