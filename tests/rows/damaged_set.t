The file of a set is damaged between two runs. The set is INDEX SEQUENTIAL, of 300 records: block 0 of its file says that block 3 is the root, whose nine children are leaves, the first of them block 1, the second block 6. Two later runs store into another data set alone, so that no restore of an opening writes these blocks again.

  $ mkdir db && cd db
  $ "$DMS" compile <<'END'
  > AUDIT TRAIL (BLOCKS = 64, FILES = 100);
  > RDS RESTART DATA SET (PID ALPHA(10););
  > E DATA SET (Y NUMBER(4););
  > D DATA SET (X NUMBER(4););
  > D-SET SET OF D KEY IS X, NO DUPLICATES;
  > END
  COMPILED 4 STRUCTURES
  $ "$DMS" initialize
  INITIALIZED AT POINT 0
  $ begin='A: OPEN UPDATE\nA: BEGIN-TRANSACTION NO-AUDIT RDS\n'
  $ end='A: END-TRANSACTION NO-AUDIT RDS SYNC\n'
  $ { printf "$begin"; for i in $(seq 300); do printf 'A: CREATE D\nA: PUT D X = %d\nA: STORE D\n' $((7 * i % 1000)); done; printf "$end"; } | "$DMS" run | tail -n 1
  SYNCPOINT 1
  $ for run in 2 3; do printf "${begin}A: CREATE E\nA: STORE E\n$end" | "$DMS" run | tail -n 1; done
  SYNCPOINT 2
  SYNCPOINT 3
  $ od -An -tx1 -N6 F30004.DMS; od -An -tx1 -j3072 -N11 F30004.DMS; od -An -tx1 -j1024 -N3 F30004.DMS
   03 01 00 00 00 03
   02 00 08 00 00 00 01 00 00 00 06
   01 00 2d

A script finds records by their keys, the first, the last and all in turn, and stores two. Over the files as they are each line is done, but for what isn't there.

  $ { printf 'A: OPEN UPDATE\n'; for x in 7 497 999 6; do echo "A: FIND D-SET AT X = $x"; done; printf 'A: FIND FIRST D-SET\nA: FIND LAST D-SET\n'; printf 'A: BEGIN-TRANSACTION NO-AUDIT RDS\nA: CREATE D\nA: PUT D X = 6\nA: STORE D\nA: CREATE D\nA: PUT D X = 3001\nA: STORE D\n'; echo 'A: FIND FIRST D-SET'; for i in $(seq 310); do echo 'A: FIND NEXT D-SET'; done; printf "$end"; } > ../script
  $ cd ..; cp -r db t; (cd t; "$DMS" run < ../script) | sed 's/^[0-9]* //' | sort | uniq -c
      315 A DONE
       11 A EXCEPTION NOTFOUND D-SET
        1 SYNCPOINT 4

The block that isn't in its form is named, once it is read: the head, the root, a leaf, a block that is cut, one that isn't there. A row is the place of a byte in the file and what is written there from that place on.

  $ harmed() { rm -rf t; cp -r db t; cd t; eval "$1"; timeout 60 "$DMS" run < ../script > ../out 2> ../said; status=$?; head -n 1 ../said | sed "s/\$/, $status/"; cd ..; }
  $ put() { printf "$2" | dd of=F30004.DMS bs=1 seek=$1 conv=notrunc status=none; }
  $ harmed "put 0 '\\000'"; harmed "put 1 '\\002'"; harmed "put 2 '\\000\\000\\000\\143'"
  dms: file 30004 block 0 damaged, 9
  dms: file 30004 block 0 damaged, 9
  dms: file 30004 block 0 damaged, 9
  $ harmed "put 3072 '\\001'"; harmed "put 3072 '\\007'"; harmed "put 3073 '\\000\\000'"; harmed "put 3073 '\\377\\377'"
  dms: file 30004 block 3 damaged, 9
  dms: file 30004 block 3 damaged, 9
  dms: file 30004 block 3 damaged, 9
  dms: file 30004 block 3 damaged, 9
  $ harmed "put 3075 '\\000\\000\\000\\003'"; harmed "put 3075 '\\000\\000\\000\\143'"
  dms: file 30004 block 3 damaged, 9
  dms: file 30004 block 3 damaged, 9
  $ harmed "put 1024 '\\007'"; harmed "put 1025 '\\000\\000'"; harmed "put 2000 '\\001'"; harmed "put 6144 '\\003'"
  dms: file 30004 block 1 damaged, 9
  dms: file 30004 block 1 damaged, 9
  dms: file 30004 block 1 damaged, 9
  dms: file 30004 block 6 damaged, 9
  $ harmed 'truncate -s 3500 F30004.DMS'; harmed 'truncate -s 0 F30004.DMS'; harmed 'rm F30004.DMS'
  dms: file 30004 block 3 damaged, 9
  dms: file 30004 block 0 damaged, 9
  dms: file 30004 block 0 damaged, 9

Where each block that is read has the form of one, but the tree isn't one, nothing is promised of the answers, and each run ends: a child twice, an inner block in the place of a leaf, a chain that is cut or runs in a circle, separators that lie.

  $ ends() { harmed "$1" > /dev/null; case $status in 0|9) echo ended;; *) echo "$1: $status";; esac; }
  $ for harm in "put 3079 '\\000\\000\\000\\001'" "put 1024 '\\002'" "put 1027 '\\000\\000\\000\\001'" "put 1027 '\\000\\000\\000\\000'" "put 1027 '\\000\\000\\000\\005'" "put 3115 '\\377'" "put 3119 '\\000'" "put 6144 '\\002'" "put 6147 '\\000\\000\\000\\001'"; do ends "$harm"; done | uniq -c
        9 ended
