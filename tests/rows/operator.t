The routines of an operator: each night, what may be removed, copies of the audit, what is lost, a wrong batch. Each command waits for the lock `../db.lock`.

  $ examples="$TESTDIR"/../../examples
  $ dms() { flock "$TMP_LOCK" "$DMS" "$@"; }
  $ TMP_LOCK="$PWD/db.lock"
  $ mkdir db backup && cd db
  $ cat > ../schema <<'END'
  > AUDIT TRAIL (BLOCKS = 8, FILES = 9900);
  > RDS RESTART DATA SET (PID ALPHA(10););
  > ACCOUNT DATA SET (ANO NUMBER(8) REQUIRED; BAL NUMBER(S9,2) INITIALVALUE = 0;);
  > ACCT-SET SET OF ACCOUNT KEY IS ANO;
  > END
  $ dms compile < ../schema
  COMPILED 3 STRUCTURES
  $ dms initialize 7
  INITIALIZED AT POINT 0
  $ deposit() {
  >   printf 'A: OPEN UPDATE\nA: BEGIN-TRANSACTION NO-AUDIT RDS\nA: CREATE ACCOUNT\n'
  >   printf 'A: PUT ACCOUNT ANO = %s, BAL = %s\nA: STORE ACCOUNT\nA: END-TRANSACTION NO-AUDIT RDS SYNC\n' "$1" "$2"
  > }
  $ look() { printf 'A: OPEN INQUIRY\n'; for n; do printf 'A: FIND ACCT-SET AT ANO = %s\nA: GET ACCOUNT\n' "$n"; done; }
  $ balances() { look "$@" | dms run | grep BAL | cut -d' ' -f4-; }
  $ deposit 1 10.00 | dms run | tail -n 1
  SYNCPOINT 1

Each night a dump is made and copied away with the description and the audit, in one lock. Then it is tried in a scratch folder.

  $ "$examples"/nightly.sh 1 ../db.lock ../backup
  DUMPED 1 AT POINT 1
  $ ls ../backup
  F00001.DMS
  F10001.DMS
  F20001.DMS
  $ (cd ../backup; "$examples"/verify.sh 1 RDS ACCOUNT=ACCT-SET)
  REBUILT TO POINT 1
  RDS 0
  ACCOUNT 1
  ACCT-SET 1

What may be removed. The first audit file that point n needs:

  $ needed() { "$DMS" print audit | awk -v n="$1" '$3 == "SCHEMA" && $4 == 1 { s = $1 } $3 == "CONTROL" { c = s } ($3 == "QUIET" || $3 == "CONTROL") && $4 == n && !k++ { f = c } END { print f }'; }
  $ needed 1
  1

The work of a day follows, and the audit is copied now and then.

  $ for n in 2 3 4 5; do deposit $n ${n}0.00 | dms run | tail -n 1; "$examples"/copy_audit.sh ../backup; done
  SYNCPOINT 2
  SYNCPOINT 3
  SYNCPOINT 4
  SYNCPOINT 5
  $ ls F1*.DMS
  F10001.DMS
  F10002.DMS
  F10003.DMS
  F10004.DMS
  $ for file in F1*.DMS; do cmp $file ../backup/$file; done

The next night, and which files may go then: each point that is to serve says which it needs, the points of the dumps that are kept and the last one, which the last line says.

  $ "$examples"/nightly.sh 2 ../db.lock ../backup
  DUMPED 2 AT POINT 5
  $ (cd ../backup; "$examples"/verify.sh 2 ACCOUNT=ACCT-SET)
  REBUILT TO POINT 5
  ACCOUNT 5
  ACCT-SET 5
  $ dms print audit | tail -n 1 | cut -d' ' -f3-
  CONTROL 5 NEXT 6
  $ needed 5
  3

With dump 1 gone files 1 and 2 may go. They are moved away first, and deleted where a run and the verified dump are well without them.

  $ mkdir ../away
  $ flock ../db.lock mv F20001.DMS F10001.DMS F10002.DMS ../away
  $ dms run < /dev/null
  $ "$examples"/verify.sh 2 ACCOUNT=ACCT-SET
  REBUILT TO POINT 5
  ACCOUNT 5
  ACCT-SET 5
  $ mv F10003.DMS ../away
  $ dms run < /dev/null
  dms: audit file 3 missing
  dms: put F10003.DMS back, as it was
  [4]
  $ mv ../away/F10003.DMS .

The disk with the structure files is lost. Nothing but a rebuild comes next: a run is refused.

  $ deposit 6 60.00 | dms run | tail -n 1
  SYNCPOINT 6
  $ dms run < /dev/null
  $ rm F3*.DMS
  $ look 1 | dms run 2>&1 | head -n 1
  dms: file 30003 block 0 damaged
  $ echo 'REBUILD FROM 2' | dms utility
  REBUILT TO POINT 6
  $ balances 1 5 6
  ANO=1, BAL=10.00
  ANO=5, BAL=50.00
  ANO=6, BAL=60.00

The description is lost. It is made again in another folder: the same schema makes the same file.

  $ mv F00001.DMS ../lost
  $ dms run < /dev/null 2>&1 | head -n 1
  dms: no database
  $ mkdir ../other && cd ../other
  $ dms compile < ../schema && dms initialize
  COMPILED 3 STRUCTURES
  INITIALIZED AT POINT 0
  $ cp F00001.DMS ../db && cd ../db
  $ cmp F00001.DMS ../lost
  $ balances 6
  ANO=6, BAL=60.00

A block of ACCOUNT goes bad. A run that reads the block says so, and its row is made again from the dump, in which the block must have been sound. An opening writes again what was changed since the control point before the last point, so a point without a change is made first.

  $ printf 'A: OPEN UPDATE\nA: BEGIN-TRANSACTION NO-AUDIT RDS\nA: END-TRANSACTION NO-AUDIT RDS SYNC\n' | dms run | tail -n 1
  SYNCPOINT 7
  $ printf 'garbage' | dd of=F30002.DMS conv=notrunc 2> /dev/null
  $ look 1 | dms run 2>&1 | head -n 2
  1 A DONE
  dms: file 30002 block 0 damaged
  $ echo 'RECONSTRUCT ACCOUNT ROW 0 FROM 2' | dms utility
  RECONSTRUCTED AT POINT 7
  $ balances 1
  ANO=1, BAL=10.00

A dump copies what stands, damage too: so the dump before is kept until the new one was tried.

  $ printf 'A: OPEN UPDATE\nA: BEGIN-TRANSACTION NO-AUDIT RDS\nA: END-TRANSACTION NO-AUDIT RDS SYNC\n' | dms run | tail -n 1
  SYNCPOINT 8
  $ cp F30002.DMS ../sound
  $ printf 'garbage' | dd of=F30002.DMS conv=notrunc 2> /dev/null
  $ echo 'DUMP TO 3' | dms utility
  DUMPED 3 AT POINT 8
  $ "$examples"/verify.sh 3 ACCOUNT=ACCT-SET 2>&1 | head -n 2
  REBUILT TO POINT 8
  dms: file 30002 block 0 damaged
  $ rm F20003.DMS; cp ../sound F30002.DMS

A wrong batch empties an account. A copy of all files first, since nothing brings back what a rollback gives up; then the points, and back to the one before the batch.

  $ { printf 'A: OPEN UPDATE\nA: BEGIN-TRANSACTION NO-AUDIT RDS\nA: LOCK ACCT-SET AT ANO = 1\n'
  >   printf 'A: PUT ACCOUNT BAL = 0.00\nA: STORE ACCOUNT\nA: END-TRANSACTION NO-AUDIT RDS SYNC\n'; } | dms run | tail -n 1
  SYNCPOINT 9
  $ echo 'DUMP TO 3' | dms utility
  DUMPED 3 AT POINT 9
  $ mkdir ../before && flock ../db.lock cp F*.DMS ../before
  $ dms print audit | grep QUIET | tail -n 2
  8 6 QUIET 8
  9 4 QUIET 9
  $ echo 'ROLLBACK TO 8' | dms utility
  ROLLED BACK TO POINT 8
  $ balances 1
  ANO=1, BAL=10.00
  $ echo 'REBUILD FROM 3' | dms utility 2>&1 | head -n 1
  dms: point 9 voided
  $ (cd ../before; balances 1)
  ANO=1, BAL=0.00

The whole folder is lost, while a run is at work: here behind line 200 of one that stores and stores, in the middle of a transaction. The backup makes the database again, up to the last point
that was copied. A rebuild comes first.

  $ mkfifo ../input
  $ dms run < ../input > ../out & run=$!
  $ exec 3> ../input
  $ { for n in $(seq 10 49); do deposit $n 1.00 | sed '1d'; done; } > ../lines
  $ { echo 'A: OPEN UPDATE'; head -n 199 ../lines; } >&3
  $ for turn in $(seq 600); do grep -q '^200 ' ../out && break; sleep 0.1; done
  $ "$examples"/copy_audit.sh ../backup
  $ tail -n 1 ../lines >&3; exec 3>&-; wait $run
  $ grep SYNCPOINT ../out | tail -n 1
  SYNCPOINT 49
  $ mkdir ../new && cp ../backup/* ../new && cd ../new
  $ dms run < /dev/null 2>&1 | head -n 1
  dms: file 30002 block 0 damaged
  $ echo 'REBUILD FROM 2' | dms utility
  REBUILT TO POINT 48
  $ balances 1 6 10 48
  ANO=1, BAL=10.00
  ANO=6, BAL=60.00
  ANO=10, BAL=1.00
  ANO=48, BAL=1.00

The ended files of the audit alone aren't enough: behind a full one the next must be there.

  $ mkdir ../ended && cp ../backup/* ../ended && cd ../ended
  $ rm "$(ls F1*.DMS | tail -n 1)"
  $ echo 'REBUILD FROM 2' | dms utility 2>&1 | head -n 1 | sed 's/[0-9]/k/g'
  dms: audit file kk missing
