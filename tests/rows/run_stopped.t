A run that is stopped within a write. A file may not grow beyond so many KiB here, and the system ends the run at the write that would pass that. Block b of
an audit file stands at 4b KiB, behind the file's header.

  $ printf 'RDS RESTART DATA SET (PID ALPHA(10););\nD DATA SET (X NUMBER(4););\n' > schema
  $ mkdir new && (cd new && "$DMS" compile < ../schema && "$DMS" initialize)
  COMPILED 2 STRUCTURES
  INITIALIZED AT POINT 0
  $ upto() { (bash -c "ulimit -c 0; ulimit -f $1; exec \"\$DMS\" run" > ../out; echo "status $?") 2> /dev/null; }
  $ last() { "$DMS" print audit | tail -n 1 | cut -d' ' -f3-; }

An empty script. Its opening writes blocks 2 and 3, and its end block 4.

  $ for size in 8 12 16 20; do rm -rf db; cp -r new db; cd db; upto $size < /dev/null; "$DMS" run < /dev/null; last; cd ..; done
  status 153
  CONTROL 0 NEXT 1
  status 153
  CONTROL 0 NEXT 1
  status 153
  CONTROL 0 NEXT 1
  status 0
  CONTROL 0 NEXT 1

A syncpoint is printed when the block of its quiet point is whole, and its gate is open. Stopped at the write of that block, the run has printed two lines, and the point isn't
there; stopped at the next block, that of the end, it has printed the syncpoint, and the point is there.

  $ printf 'A: OPEN UPDATE\nA: BEGIN-TRANSACTION NO-AUDIT RDS\nA: END-TRANSACTION NO-AUDIT RDS SYNC\n' > script
  $ for size in 16 20; do rm -rf db; cp -r new db; cd db; upto $size < ../script; cat ../out; "$DMS" run < /dev/null; last; cd ..; done
  status 153
  1 A DONE
  2 A DONE
  CONTROL 0 NEXT 1
  status 153
  1 A DONE
  2 A DONE
  3 A DONE
  SYNCPOINT 1
  CONTROL 1 NEXT 2

A transaction that changes more blocks than BUFFERS, and doesn't end. Wherever it is stopped, nothing of it is left, also where the file of D was written; and it
was: 240 records take 120 blocks.

  $ mkdir early && cd early
  $ "$DMS" compile <<'END'
  > PARAMETERS (BUFFERS = 8 BLOCKS);
  > RDS RESTART DATA SET (PID ALPHA(10););
  > D DATA SET (A ALPHA(200); B ALPHA(200););
  > END
  COMPILED 2 STRUCTURES
  $ "$DMS" initialize
  INITIALIZED AT POINT 0
  $ cd ..
  $ { echo 'A: OPEN UPDATE'; echo 'A: BEGIN-TRANSACTION NO-AUDIT RDS'; for n in $(seq 240); do echo 'A: CREATE D'; echo 'A: STORE D'; done; } > script
  $ printf 'A: OPEN INQUIRY\nA: FIND FIRST D\n' > look
  $ for size in 8 12 16 20 48 52 100 120 160; do
  >   rm -rf t; cp -r early t; cd t
  >   upto $size < ../script
  >   test -s F30002.DMS && echo "stopped at $size KiB, D is written"
  >   "$DMS" run < ../look | tail -n 1
  >   cd ..
  > done | sort | uniq -c
        9 2 A EXCEPTION NOTFOUND D
        9 status 153
        1 stopped at 100 KiB, D is written
        1 stopped at 120 KiB, D is written
        1 stopped at 160 KiB, D is written
        1 stopped at 48 KiB, D is written
        1 stopped at 52 KiB, D is written

Stopped in the middle, and then three openings are stopped, each at the next write of an audit block: the first one at the block of its Begin, the second and the third, which goes on with
the same restore, at that of its control point. What is left stands for point 0 each time: a copy tells.

  $ rm -rf t; cp -r early t; cd t
  $ upto 108 < ../script
  status 153
  $ tail -n 1 ../out | cut -d' ' -f2-
  A DONE
  $ left() { rm -rf ../u; cp -r . ../u; (cd ../u; "$DMS" run < ../look | tail -n 1; last; "$DMS" print audit | grep -c BEGIN); }
  $ left
  2 A EXCEPTION NOTFOUND D
  CONTROL 0 NEXT 1
  2
  $ n=$("$DMS" print audit | tail -n 1 | cut -d' ' -f2)
  $ for size in $((4 * n + 4)) $((4 * n + 8)) $((4 * n + 8)); do upto $size < /dev/null; left; done
  status 153
  2 A EXCEPTION NOTFOUND D
  CONTROL 0 NEXT 1
  2
  status 153
  2 A EXCEPTION NOTFOUND D
  CONTROL 0 NEXT 1
  2
  status 153
  2 A EXCEPTION NOTFOUND D
  CONTROL 0 NEXT 1
  2
