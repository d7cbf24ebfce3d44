A quiet point counts once the gate of its audit block is open.

  $ mkdir db && cd db
  $ "$DMS" compile <<'END'
  > RDS RESTART DATA SET (PID ALPHA(10););
  > D DATA SET (X NUMBER(4););
  > END
  COMPILED 2 STRUCTURES
  $ "$DMS" initialize
  INITIALIZED AT POINT 0
  $ mkfifo ../input
  $ : > ../out
  $ "$DMS" run < ../input > ../out &
  $ exec 3> ../input
  $ cat >&3 <<'END'
  > A: OPEN UPDATE
  > A: BEGIN-TRANSACTION NO-AUDIT RDS
  > A: END-TRANSACTION NO-AUDIT RDS SYNC
  > END
  $ for turn in $(seq 600); do grep -qx 'SYNCPOINT 1' ../out && break; sleep 0.1; done
  $ kill -9 $!
  $ wait $! 2> /dev/null
  [137]
  $ exec 3>&-
  $ cat ../out
  1 A DONE
  2 A DONE
  3 A DONE
  SYNCPOINT 1
  $ "$DMS" print audit
  1 1 SCHEMA 1 OF 1 LENGTH 62
  1 1 CONTROL 0 NEXT 1
  1 2 BEGIN 0 HALTLOAD
  1 3 SCHEMA 1 OF 1 LENGTH 62
  1 3 CONTROL 0 NEXT 1
  1 4 QUIET 1

A stop within the write of that gate leaves the byte that was there, the one that was written, or any other. Only the byte 1 is an open
gate. The gate of block 4 is byte 515.

  $ cd ..
  $ for gate in 00 01 02 07 ff; do
  >   rm -rf t; cp -r db t; cd t
  >   printf "\\$(printf %03o "0x$gate")" | dd of=F10001.DMS bs=1 seek=515 conv=notrunc status=none
  >   "$DMS" run < /dev/null
  >   echo "$gate: $("$DMS" print audit | tail -n 1)"
  >   cd ..
  > done
  00: 1 6 CONTROL 0 NEXT 1
  01: 1 7 CONTROL 1 NEXT 2
  02: 1 6 CONTROL 0 NEXT 1
  07: 1 6 CONTROL 0 NEXT 1
  ff: 1 6 CONTROL 0 NEXT 1

What stands in the block counts for nothing while the gate is shut: here it is half written, and there not at all.

  $ for size in 16384 16385 16390; do
  >   rm -rf t; cp -r db t; cd t
  >   printf '\000' | dd of=F10001.DMS bs=1 seek=515 conv=notrunc status=none
  >   truncate -s $size F10001.DMS
  >   "$DMS" run < /dev/null
  >   "$DMS" print audit | tail -n 1
  >   cd ..
  > done
  1 6 CONTROL 0 NEXT 1
  1 6 CONTROL 0 NEXT 1
  1 6 CONTROL 0 NEXT 1
