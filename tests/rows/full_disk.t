A disk that is full: the run stops, and with room enough the next one goes on after the last SYNCPOINT. Here a limit on the length of files stands for the disk.

  $ mkdir db && cd db
  $ printf 'AUDIT TRAIL (FILES = 9900);\nRDS RESTART DATA SET (PID ALPHA(10););\nD DATA SET (X NUMBER(4););\n' | "$DMS" compile
  COMPILED 2 STRUCTURES
  $ "$DMS" initialize
  INITIALIZED AT POINT 0
  $ transaction() { printf 'A: BEGIN-TRANSACTION NO-AUDIT RDS\nA: CREATE D\nA: PUT D X = %d\nA: STORE D\nA: END-TRANSACTION NO-AUDIT RDS SYNC\n' "$1"; }
  $ { echo 'A: OPEN UPDATE'; for n in $(seq 20); do transaction $n; done; } > ../script
  $ bash -c "trap '' XFSZ; ulimit -f 40; exec \"\$DMS\" run" < ../script > ../out
  dms: disk fault
  dms: F10001.DMS: File too large
  [5]
  $ tail -n 1 ../out
  35 A DONE
  $ grep SYNCPOINT ../out | tail -n 1
  SYNCPOINT 6

With room, an empty script is enough. What was there at the last SYNCPOINT is there.

  $ "$DMS" run < /dev/null
  $ printf 'A: OPEN INQUIRY\nA: FIND LAST D\nA: GET D\n' | "$DMS" run
  1 A DONE
  2 A DONE
  3 A DONE X=6

The script goes on behind the last transaction that is there.

  $ { echo 'A: OPEN UPDATE'; for n in $(seq 7 20); do transaction $n; done; } | "$DMS" run | tail -n 1
  SYNCPOINT 20

A dump that found no room leaves its file, which is shut and takes room. It may be removed without a run; the same statement writes it anew. No file of the audit is as long as the dump
of 50 blocks.

  $ mkdir ../large && cd ../large
  $ printf 'AUDIT TRAIL (BLOCKS = 8, FILES = 9900);\nRDS RESTART DATA SET (PID ALPHA(10););\nD DATA SET (X NUMBER(4); T ALPHA(200); U ALPHA(200););\n' | "$DMS" compile
  COMPILED 2 STRUCTURES
  $ "$DMS" initialize
  INITIALIZED AT POINT 0
  $ { printf 'A: OPEN UPDATE\nA: BEGIN-TRANSACTION NO-AUDIT RDS\n'; for n in $(seq 100); do printf 'A: CREATE D\nA: PUT D X = %d\nA: STORE D\n' $n; done; echo 'A: END-TRANSACTION NO-AUDIT RDS'; } | "$DMS" run | tail -n 1
  303 A DONE
  $ printf 'A: OPEN UPDATE\nA: BEGIN-TRANSACTION NO-AUDIT RDS\nA: END-TRANSACTION NO-AUDIT RDS SYNC\n' | "$DMS" run | tail -n 1
  SYNCPOINT 2
  $ echo 'DUMP TO 1' | bash -c "trap '' XFSZ; ulimit -f 40; exec \"\$DMS\" utility"
  dms: disk fault
  dms: F20001.DMS: File too large
  [5]
  $ echo 'REBUILD FROM 1' | "$DMS" utility
  dms: dump 1 unsealed
  dms: the dump wasn't finished: name another, or remove F20001.DMS
  [4]
  $ cp F20001.DMS ../shut; rm F20001.DMS
  $ "$DMS" run < /dev/null
  $ cp ../shut F20001.DMS
  $ echo 'DUMP TO 1' | "$DMS" utility
  DUMPED 1 AT POINT 2
