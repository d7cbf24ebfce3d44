The audit on a disk of its own: the folder stands there, and the structure files are links to files on another disk, which are made empty before `initialize`.

  $ mkdir db disk && cd db
  $ printf 'RDS RESTART DATA SET (PID ALPHA(10););\nD DATA SET (X NUMBER(4););\nD-SET SET OF D KEY IS X;\n' | "$DMS" compile
  COMPILED 3 STRUCTURES
  $ empty() { for file in F30001.DMS F30002.DMS F30003.DMS; do : > ../disk/$file; done; }
  $ empty
  $ for file in F30001.DMS F30002.DMS F30003.DMS; do ln -s ../disk/$file $file; done
  $ "$DMS" initialize
  INITIALIZED AT POINT 0
  $ store() { printf "A: OPEN UPDATE\nA: BEGIN-TRANSACTION NO-AUDIT RDS\nA: CREATE D\nA: PUT D X = $1\nA: STORE D\nA: END-TRANSACTION NO-AUDIT RDS SYNC\n"; }
  $ store 1 | "$DMS" run | tail -n 1
  SYNCPOINT 1
  $ store 2 | "$DMS" run | tail -n 1
  SYNCPOINT 2
  $ echo 'DUMP TO 1' | "$DMS" utility
  DUMPED 1 AT POINT 2
  $ store 3 | "$DMS" run | tail -n 1
  SYNCPOINT 3
  $ stat -c '%n %s' ../disk/*
  ../disk/F30001.DMS 0
  ../disk/F30002.DMS 1024
  ../disk/F30003.DMS 2048

The disk is lost. Its files are made again, empty, and then the database is rebuilt. A link that leads to no file is refused before.

  $ rm ../disk/*
  $ echo 'REBUILD FROM 1' | "$DMS" utility 2>&1 | head -n 1
  dms: disk fault
  $ empty
  $ echo 'REBUILD FROM 1' | "$DMS" utility
  REBUILT TO POINT 3
  $ printf 'A: OPEN INQUIRY\nA: FIND LAST D-SET\nA: GET D\n' | "$DMS" run | tail -n 1
  3 A DONE X=3
  $ stat -c '%n %s' ../disk/*
  ../disk/F30001.DMS 0
  ../disk/F30002.DMS 1024
  ../disk/F30003.DMS 2048
