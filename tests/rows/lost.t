A structure file that is lost, or ends too early, keeps `run` from its first line, and nothing changes. D has two records a block, D-SET is its set, and E has no record.

  $ mkdir db && cd db
  $ printf 'RDS RESTART DATA SET (PID ALPHA(10););\nD DATA SET (X NUMBER(4) REQUIRED; A ALPHA(200); B ALPHA(200););\nE DATA SET (Y NUMBER(4););\nD-SET SET OF D KEY IS X;\n' | "$DMS" compile
  COMPILED 4 STRUCTURES
  $ "$DMS" initialize
  INITIALIZED AT POINT 0
  $ store() { echo 'A: OPEN UPDATE'; for x; do printf "A: BEGIN-TRANSACTION NO-AUDIT RDS\nA: CREATE D\nA: PUT D X = $x\nA: STORE D\nA: END-TRANSACTION NO-AUDIT RDS SYNC\n"; done; }
  $ walk() { { echo 'A: OPEN INQUIRY'; yes "A: FIND NEXT $1
  > A: GET D X" | head -n 60; } | "$DMS" run | awk '/ EXCEPTION / {exit} sub(/^[0-9]+ A DONE X=/, "")' | tr '\n' ' '; echo; }
  $ store 1 2 3 4 5 6 7 | "$DMS" run | tail -n 1
  SYNCPOINT 7
  $ store 8 | "$DMS" run | tail -n 1
  SYNCPOINT 8
  $ echo 'DUMP TO 1' | "$DMS" utility
  DUMPED 1 AT POINT 8
  $ stat -c '%n %s' F3*.DMS
  F30002.DMS 4096
  F30004.DMS 2048
  $ cd ..; cp -r db sound
  $ again() { cd ..; rm -rf db; cp -r sound db; cd db; }
  $ first() { "$@" 2>&1 | head -n 1; }

The file of D is gone. Neither `run` nor DUMP begins, and nothing of the script is taken.

  $ cd db; rm F30002.DMS
  $ cksum F*.DMS > ../before
  $ printf 'A: OPEN INQUIRY\n' > ../look
  $ { "$DMS" run 2>&1 | head -n 1; cat; } < ../look
  dms: file 30002 block 0 damaged
  A: OPEN INQUIRY
  $ first "$DMS" run < /dev/null
  dms: file 30002 block 0 damaged
  $ echo 'DUMP TO 2' | first "$DMS" utility
  dms: file 30002 block 0 damaged
  $ cksum F*.DMS | cmp - ../before

A rebuild makes it anew.

  $ echo 'REBUILD FROM 1' | "$DMS" utility
  REBUILT TO POINT 8
  $ walk D; walk D-SET
  1 2 3 4 5 6 7 8 
  1 2 3 4 5 6 7 8 

A file of no bytes, one that ends within a block, and one that ends between two.

  $ again; truncate -s 0 F30002.DMS; first "$DMS" run < /dev/null
  dms: file 30002 block 0 damaged
  $ again; truncate -s 2500 F30002.DMS; first "$DMS" run < /dev/null
  dms: file 30002 block 2 damaged
  $ again; truncate -s 2048 F30002.DMS; first "$DMS" run < /dev/null
  dms: file 30002 block 2 damaged

A last block that alone is gone is no loss here: the audit tells it since the last control point before point 8, and the opening writes it again.

  $ again; truncate -s 3072 F30002.DMS
  $ "$DMS" run < /dev/null
  $ walk D
  1 2 3 4 5 6 7 8 

The file of a set. Its block 1 was changed behind that control point, and its block 0 wasn't.

  $ again; rm F30004.DMS; first "$DMS" run < /dev/null
  dms: file 30004 block 0 damaged
  $ again; truncate -s 1024 F30004.DMS; "$DMS" run < /dev/null; walk D-SET
  1 2 3 4 5 6 7 8 

A data set without records has no block, and so no file: neither is missed.

  $ again; ls F30003.DMS 2> /dev/null
  [2]
  $ "$DMS" run < /dev/null
  $ : > F30003.DMS; "$DMS" run < /dev/null

The copy of a backup without its structure files: what comes first is the rebuild.

  $ mkdir ../new; cp ../sound/F[012]*.DMS ../new; cd ../new; ls
  F00001.DMS
  F10001.DMS
  F20001.DMS
  $ store 9 | first "$DMS" run
  dms: file 30002 block 0 damaged
  $ ls
  F00001.DMS
  F10001.DMS
  F20001.DMS
  $ echo 'REBUILD FROM 1' | "$DMS" utility
  REBUILT TO POINT 8
  $ store 9 | "$DMS" run | tail -n 1
  SYNCPOINT 9
  $ walk D-SET
  1 2 3 4 5 6 7 8 9 
  $ cd ../db

ROLLBACK and RECONSTRUCT mark what is missing: each block that they would take from where the file has none is 1,024 bytes of 255 then. What the audit tells stands beside it, and each later look at a mark
ends with 9.

  $ find() { printf "A: OPEN INQUIRY\nA: FIND $1\nA: GET D X\n" | "$DMS" run 2>&1; }
  $ marked() { tail -c +$((1024 * $2 + 1)) $1 | head -c 1024 | tr -d '\377' | wc -c; }
  $ again; rm F30002.DMS
  $ echo 'ROLLBACK TO 8' | "$DMS" utility
  ROLLED BACK TO POINT 8
  $ stat -c %s F30002.DMS; for block in 0 1 2; do marked F30002.DMS $block; done; cmp -i 3072 F30002.DMS ../sound/F30002.DMS
  4096
  0
  0
  0
  $ find 'FIRST D'
  1 A DONE
  dms: file 30002 block 0 damaged
  dms: reconstruct row 0 of D, or rebuild, from a dump, or put back a copy of the whole database
  [9]
  $ find 'D-SET AT X = 6'
  1 A DONE
  dms: file 30002 block 2 damaged
  dms: reconstruct row 0 of D, or rebuild, from a dump, or put back a copy of the whole database
  [9]
  $ find 'D-SET AT X = 8'
  1 A DONE
  2 A DONE
  3 A DONE X=8

Reconstruction of its row makes each of them what it was.

  $ echo 'RECONSTRUCT D ROW 0 FROM 1' | "$DMS" utility
  RECONSTRUCTED AT POINT 8
  $ cmp F30002.DMS ../sound/F30002.DMS; walk D
  1 2 3 4 5 6 7 8 

A file that is cut within a block: what stands before it stays.

  $ again; truncate -s 2500 F30002.DMS
  $ echo 'ROLLBACK TO 8' | "$DMS" utility
  ROLLED BACK TO POINT 8
  $ cmp -n 2048 F30002.DMS ../sound/F30002.DMS; marked F30002.DMS 2; cmp -i 3072 F30002.DMS ../sound/F30002.DMS
  0

The file of a set, and the file of D where the row of another structure is reconstructed.

  $ again; rm F30004.DMS
  $ echo 'ROLLBACK TO 8' | "$DMS" utility
  ROLLED BACK TO POINT 8
  $ find 'FIRST D-SET' | sed -n 2p
  dms: file 30004 block 0 damaged
  $ echo 'RECONSTRUCT D-SET ROW 0 FROM 1' | "$DMS" utility
  RECONSTRUCTED AT POINT 8
  $ walk D-SET
  1 2 3 4 5 6 7 8 
  $ rm F30002.DMS
  $ echo 'RECONSTRUCT D-SET ROW 0 FROM 1' | "$DMS" utility
  RECONSTRUCTED AT POINT 8
  $ find 'FIRST D' | sed -n 2p
  dms: file 30002 block 0 damaged
  $ echo 'REBUILD FROM 1' | "$DMS" utility
  REBUILT TO POINT 8
  $ cmp F30002.DMS ../sound/F30002.DMS; walk D
  1 2 3 4 5 6 7 8 

A file of two rows, of 16 blocks and of 5. The row that is reconstructed is mended, and no other one.

  $ again; store $(seq 9 41) | "$DMS" run | tail -n 1
  SYNCPOINT 41
  $ store 42 | "$DMS" run | tail -n 1
  SYNCPOINT 42
  $ echo 'DUMP TO 2' | "$DMS" utility
  DUMPED 2 AT POINT 42
  $ cp F30002.DMS ../two; rm F30002.DMS
  $ echo 'ROLLBACK TO 42' | "$DMS" utility
  ROLLED BACK TO POINT 42
  $ for x in 1 32 33 40 42; do find "D-SET AT X = $x" | sed -n '2,3p' | tail -n 1; done
  dms: reconstruct row 0 of D, or rebuild, from a dump, or put back a copy of the whole database
  dms: reconstruct row 0 of D, or rebuild, from a dump, or put back a copy of the whole database
  dms: reconstruct row 1 of D, or rebuild, from a dump, or put back a copy of the whole database
  dms: reconstruct row 1 of D, or rebuild, from a dump, or put back a copy of the whole database
  3 A DONE X=42
  $ echo 'RECONSTRUCT D ROW 1 FROM 2' | "$DMS" utility
  RECONSTRUCTED AT POINT 42
  $ cmp -i 16384 F30002.DMS ../two; for block in $(seq 0 15); do marked F30002.DMS $block; done | uniq
  0
  $ echo 'RECONSTRUCT D ROW 0 FROM 2' | "$DMS" utility
  RECONSTRUCTED AT POINT 42
  $ cmp F30002.DMS ../two

A rollback that was stopped behind its Begin, and a file that is lost behind that: `run` refuses it, a reconstruction ends the rollback first, and marks what is missing.

  $ again; blocks=$((($(stat -c %s F10001.DMS) + 4095) / 4096))
  $ (bash -c "ulimit -c 0; ulimit -f $((4 * (blocks + 1))); echo 'ROLLBACK TO 8' | \"\$DMS\" utility" > ../out; echo "status $?") 2> /dev/null
  status 153
  $ "$DMS" print audit | tail -n 1 | cut -d' ' -f3-
  BEGIN 8 ROLLBACK
  $ rm F30002.DMS; first "$DMS" run < /dev/null
  dms: file 30002 block 0 damaged
  $ echo 'RECONSTRUCT D-SET ROW 0 FROM 1' | "$DMS" utility
  RECONSTRUCTED AT POINT 8
  $ find 'FIRST D' | sed -n 2p
  dms: file 30002 block 0 damaged
  $ echo 'RECONSTRUCT D ROW 0 FROM 1' | "$DMS" utility
  RECONSTRUCTED AT POINT 8
  $ cmp F30002.DMS ../sound/F30002.DMS; walk D
  1 2 3 4 5 6 7 8 

RECONSTRUCT of all rows of the lost file brings it back, too.

  $ again; rm F30002.DMS
  $ echo 'RECONSTRUCT D ROW 0 FROM 1' | "$DMS" utility
  RECONSTRUCTED AT POINT 8
  $ walk D
  1 2 3 4 5 6 7 8 

Blocks that a stop kept from being written are no loss: the opening writes them from the audit.

  $ again; mkfifo ../script
  $ "$DMS" run < ../script > ../out & run=$!
  $ exec 3> ../script; store 11 12 13 14 15 16 17 18 19 >&3
  $ while ! grep -q 'SYNCPOINT 17' ../out; do sleep 0.1; done; kill -9 $run; wait $run 2> /dev/null; exec 3>&-
  $ stat -c %s F30002.DMS
  4096
  $ "$DMS" run < /dev/null
  $ walk D
  1 2 3 4 5 6 7 8 11 12 13 14 15 16 17 18 19 
  $ stat -c %s F30002.DMS
  9216

Audit files of an older copy, under structure files that are newer: a run takes them as they are. What came behind their last point is gone, but for blocks that they don't tell since the control point
before it: these stay as they were, newer. A rebuild is right.

  $ again; mkdir ../older; cp F1*.DMS ../older
  $ look() { printf 'A: OPEN INQUIRY\nA: FIND FIRST D\nA: GET D X, A\n' | "$DMS" run | tail -n 1; }
  $ printf 'A: OPEN UPDATE\nA: BEGIN-TRANSACTION NO-AUDIT RDS\nA: LOCK FIRST D\nA: PUT D A = "NEW"\nA: STORE D\nA: END-TRANSACTION NO-AUDIT RDS SYNC\n' | "$DMS" run | tail -n 1
  SYNCPOINT 9
  $ cp ../older/F1*.DMS .
  $ look
  3 A DONE X=1, A="NEW"
  $ echo 'REBUILD FROM 1' | "$DMS" utility
  REBUILT TO POINT 8
  $ look
  3 A DONE X=1, A=NULL
