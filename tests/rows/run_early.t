A transaction that changes more blocks than BUFFERS: some are written before it ends. Two records stand in a block of D.

  $ mkdir db && cd db
  $ "$DMS" compile <<'END'
  > PARAMETERS (BUFFERS = 8 BLOCKS);
  > RDS RESTART DATA SET (PID ALPHA(10););
  > D DATA SET (A ALPHA(200); B ALPHA(200););
  > END
  COMPILED 2 STRUCTURES
  $ "$DMS" initialize
  INITIALIZED AT POINT 0
  $ cd ..
  $ { echo 'A: OPEN UPDATE'; echo 'A: BEGIN-TRANSACTION NO-AUDIT RDS'; for n in $(seq 80); do echo 'A: CREATE D'; echo 'A: STORE D'; done; } > script
  $ printf 'A: OPEN INQUIRY\nA: FIND FIRST D\n' > look
  $ mkfifo input
  $ killed() { : > out; rm -rf t; cp -r "$1" t; cd t; "$DMS" run < ../input > ../out & exec 3> ../input; head -n $2 ../script >&3; for turn in $(seq 600); do grep -qx "$2 A DONE" ../out && break; sleep 0.1; done; kill -9 $!; wait $! 2> /dev/null; exec 3>&-; cd ..; }

Wherever the run is stopped, nothing of the transaction is left, also where the file of D was written. With line 36 nine blocks are changed, and eight
are kept.

  $ for line in 1 2 3 4 18 36 38 40 99 100 101 161 162; do killed db $line; test -s t/F30002.DMS && echo "after $line D is written"; (cd t; "$DMS" run < ../look) > answers; tail -n 1 answers; done | sort | uniq -c
       13 2 A EXCEPTION NOTFOUND D
        1 after 100 D is written
        1 after 101 D is written
        1 after 161 D is written
        1 after 162 D is written
        1 after 36 D is written
        1 after 38 D is written
        1 after 40 D is written
        1 after 99 D is written
  $ (cd t; "$DMS" print audit) | tail -n 1 | cut -d' ' -f3-
  CONTROL 0 NEXT 1

Whenever it is stopped, too.

  $ for time in 0.003 0.006 0.01 0.02 0.03 0.05 0.08 0.13 0.2; do rm -rf t; cp -r db t; cd t; timeout --foreground -s KILL $time "$DMS" run < ../script > /dev/null; "$DMS" run < ../look; cd ..; done | sort | uniq -c
        9 1 A DONE
        9 2 A EXCEPTION NOTFOUND D

The opening may be stopped as well, and the one behind it. Here a run is stopped behind line 100, and three openings after it, each a moment later.

  $ killed db 100
  $ cd t
  $ for time in 0.002 0.004 0.008; do timeout --foreground -s KILL $time "$DMS" run < /dev/null || true; done
  $ "$DMS" run < ../look
  1 A DONE
  2 A EXCEPTION NOTFOUND D
  $ "$DMS" print audit | tail -n 1 | cut -d' ' -f3-
  CONTROL 0 NEXT 1
  $ cd ..

The same at the places themselves: a stop within the write of the block of its Begin, of that block's gate, of the block of its control point, and of that one's gate. Block b has
the Begin. What was being written may hold any bytes; here they are the byte 7.

  $ killed db 100
  $ cp -r t stopped
  $ (cd t; "$DMS" run < /dev/null; "$DMS" print audit) > audit
  $ b=$(awk '$3 == "BEGIN" { n = $2 } END { print n }' audit)
  $ tail -n 5 audit | sed "s/^1 $b /1 b /; s/^1 $((b + 1)) /1 b+1 /; s/^1 $((b + 2)) /1 b+2 /"
  1 b BEGIN 0 HALTLOAD
  1 b+1 SCHEMA 1 OF 1 LENGTH 70
  1 b+1 CONTROL 0 NEXT 1
  1 b+2 SCHEMA 1 OF 1 LENGTH 70
  1 b+2 CONTROL 0 NEXT 1
  $ gate() { printf "\\00$2" | dd of=u/F10001.DMS bs=1 seek=$((511 + $1)) conv=notrunc status=none; }
  $ torn() { head -c 4096 /dev/zero | tr '\0' '\007' | dd of=u/F10001.DMS bs=4096 seek=$1 conv=notrunc status=none; }
  $ next() { rm -rf u; cp -r t u; cp $1/F3*.DMS u; gate $((b + 2)) 0; }
  $ point() { (cd u; "$DMS" run < ../look | tail -n 1; "$DMS" print audit | tail -n 1 | cut -d' ' -f3-); }
  $ next stopped; gate $((b + 1)) 0; gate $b 0; torn $b; torn $((b + 1)); point
  2 A EXCEPTION NOTFOUND D
  CONTROL 0 NEXT 1
  $ next stopped; gate $((b + 1)) 0; gate $b 7; torn $((b + 1)); point
  2 A EXCEPTION NOTFOUND D
  CONTROL 0 NEXT 1
  $ next stopped; gate $((b + 1)) 0; torn $((b + 1)); point
  2 A EXCEPTION NOTFOUND D
  CONTROL 0 NEXT 1
  $ next stopped; gate $((b + 1)) 7; point
  2 A EXCEPTION NOTFOUND D
  CONTROL 0 NEXT 1

With records of an earlier transaction: they are there as they were, although a block of theirs was changed and written since. The point in between changed
nothing, so only the image of that change tells what the block was. A stop within the restore may have torn what it was writing, and the next opening writes it
once more.

  $ rm -rf kept; cp -r db kept; cd kept
  $ "$DMS" run > ../out <<'END'
  > A: OPEN UPDATE
  > A: BEGIN-TRANSACTION NO-AUDIT RDS
  > A: CREATE D
  > A: PUT D A = "ONE"
  > A: STORE D
  > A: CREATE D
  > A: PUT D A = "TWO"
  > A: STORE D
  > A: CREATE D
  > A: PUT D A = "THREE"
  > A: STORE D
  > A: END-TRANSACTION NO-AUDIT RDS SYNC
  > END
  $ tail -n 1 ../out
  SYNCPOINT 1
  $ printf 'A: OPEN UPDATE\nA: BEGIN-TRANSACTION NO-AUDIT RDS\nA: END-TRANSACTION NO-AUDIT RDS SYNC\n' | "$DMS" run | tail -n 1
  SYNCPOINT 2
  $ cd ..
  $ printf 'A: OPEN INQUIRY\nA: FIND FIRST D\nA: GET D A\nA: FIND LAST D\nA: GET D A\n' > look
  $ killed kept 162
  $ cp -r t kept_stopped
  $ (cd t; "$DMS" run < ../look; "$DMS" print audit > ../audit)
  1 A DONE
  2 A DONE
  3 A DONE A="ONE"
  4 A DONE
  5 A DONE A="THREE"
  $ b=$(awk '$3 == "BEGIN" { n = $2 } END { print n }' audit)
  $ tail -n 1 audit | sed "s/^1 $((b + 2)) /1 b+2 /"
  1 b+2 CONTROL 2 NEXT 3
  $ torn_record() { head -c 512 /dev/zero | tr '\0' '\007' | dd of=u/F30002.DMS bs=1024 seek=1 conv=notrunc status=none; }
  $ next kept_stopped; gate $((b + 1)) 0; torn $((b + 1)); point
  5 A DONE A="THREE"
  CONTROL 2 NEXT 3
  $ next kept_stopped; gate $((b + 1)) 0; torn $((b + 1)); torn_record; point
  5 A DONE A="THREE"
  CONTROL 2 NEXT 3
