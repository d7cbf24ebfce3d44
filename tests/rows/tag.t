The tag of a database stands in each of its audit files and dumps, and files of another database are refused. Two databases, made alike but for their tags.

  $ make() {
  >   mkdir "$1" && cd "$1"
  >   printf 'AUDIT TRAIL (BLOCKS = 8, FILES = 100);\nRDS RESTART DATA SET (PID ALPHA(10););\nD DATA SET (X NUMBER(4););\n' | "$DMS" compile
  >   "$DMS" initialize "$2"
  >   { echo 'A: OPEN UPDATE'; for n in $(seq 20); do printf 'A: BEGIN-TRANSACTION NO-AUDIT RDS\nA: CREATE D\nA: PUT D X = %d\nA: STORE D\nA: END-TRANSACTION NO-AUDIT RDS SYNC\n' $n; done; } | "$DMS" run | tail -n 1
  >   cd ..
  > }
  $ make seven 7
  COMPILED 2 STRUCTURES
  INITIALIZED AT POINT 0
  SYNCPOINT 20
  $ make eight 8
  COMPILED 2 STRUCTURES
  INITIALIZED AT POINT 0
  SYNCPOINT 20
  $ od -A n -t x1 -j 10 -N 8 seven/F10001.DMS
   00 00 00 00 00 00 00 07

An audit file of the other one.

  $ cp -r seven mixed && cp eight/F10003.DMS mixed && cd mixed
  $ cksum F*.DMS > ../before
  $ "$DMS" run < /dev/null
  dms: audit file 3 of another database
  dms: put back all files of one copy of the database
  [4]
  $ cksum F*.DMS | cmp - ../before
  $ cd ..

A dump has the tag behind its mark.

  $ (cd eight; echo 'DUMP TO 1' | "$DMS" utility)
  DUMPED 1 AT POINT 20
  $ od -A n -c -N 5 eight/F20001.DMS
   001   D   M   S   E
  $ od -A n -t x1 -j 5 -N 8 eight/F20001.DMS
   00 00 00 00 00 00 00 08

A dump of the other one is refused before anything is written, and one of its own serves.

  $ cp eight/F20001.DMS seven && cd seven
  $ cksum F*.DMS > ../before
  $ echo 'REBUILD FROM 1' | "$DMS" utility
  dms: dump 1 of another database
  dms: put F20001.DMS back, as it was, or name another dump
  [4]
  $ cksum F*.DMS | cmp - ../before
  $ rm F20001.DMS
  $ echo 'DUMP TO 1' | "$DMS" utility
  DUMPED 1 AT POINT 20
  $ echo 'REBUILD FROM 1' | "$DMS" utility
  REBUILT TO POINT 20
