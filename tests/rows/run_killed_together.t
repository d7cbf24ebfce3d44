Several programs work, and the run is killed behind each line in turn. What the next run finds is a quiet point of all of them together.

  $ mkdir new && cd new
  $ "$DMS" compile <<'END'
  > RDS RESTART DATA SET (PID ALPHA(10););
  > D DATA SET (X NUMBER(4););
  > END
  COMPILED 2 STRUCTURES
  $ "$DMS" initialize
  INITIALIZED AT POINT 0
  $ cd ..
  $ mkfifo input
  $ start() { : > out; rm -rf db; cp -r new db; cd db; "$DMS" run < ../input > ../out & exec 3> ../input; cd ..; }
  $ wait_for() { for turn in $(seq 600); do grep -qx "$1" out && return; sleep 0.1; done; echo "no line '$1'"; }
  $ stop() { kill -9 $!; wait $! 2> /dev/null; exec 3>&-; }
  $ point() { (cd db; printf 'A: OPEN INQUIRY\nA: FIND LAST D\nA: GET D\n' | "$DMS" run | tail -n +2 | cut -d' ' -f3- | paste -s -d' '; "$DMS" print audit | tail -n 1 | cut -d' ' -f3-) | paste -s -d' '; }
  $ behind() { start; head -n $1 script >&3; wait_for "$2"; stop; point; }

A transaction begins only behind a syncpoint that is pending. It comes when the last program that is in a transaction ends: until then there is no quiet
point behind point 0, also where A's END-TRANSACTION was answered, and then it is durable before C goes on.

  $ cat > script <<'END'
  > A: OPEN UPDATE
  > B: OPEN UPDATE
  > C: OPEN UPDATE
  > A: BEGIN-TRANSACTION NO-AUDIT RDS
  > B: BEGIN-TRANSACTION NO-AUDIT RDS
  > A: CREATE D
  > A: PUT D X = 5
  > A: STORE D
  > A: END-TRANSACTION NO-AUDIT RDS SYNC
  > C: BEGIN-TRANSACTION NO-AUDIT RDS
  > B: END-TRANSACTION NO-AUDIT RDS
  > END
  $ for line in 1 2 3; do behind $line "$line [ABC] DONE"; done | uniq -c
        3 EXCEPTION NOTFOUND D EXCEPTION NORECORD D CONTROL 0 NEXT 1
  $ for line in 4 5 6 7 8 9; do behind $line "$line [AB] DONE"; done | uniq -c
        6 EXCEPTION NOTFOUND D EXCEPTION NORECORD D CONTROL 0 NEXT 1
  $ behind 10 '10 C WAITS FOR B'
  EXCEPTION NOTFOUND D EXCEPTION NORECORD D CONTROL 0 NEXT 1
  $ behind 11 '10 C DONE'
  DONE DONE X=5 CONTROL 1 NEXT 2
  $ cat out
  1 A DONE
  2 B DONE
  3 C DONE
  4 A DONE
  5 B DONE
  6 A DONE
  7 A DONE
  8 A DONE
  9 A DONE
  10 C WAITS FOR B
  11 B DONE
  SYNCPOINT 1
  10 C DONE

One program backs out, and what the other one ended beside it goes with it. A stop within changes nothing of that.

  $ cat > script <<'END'
  > A: OPEN UPDATE
  > B: OPEN UPDATE
  > A: BEGIN-TRANSACTION NO-AUDIT RDS
  > B: BEGIN-TRANSACTION NO-AUDIT RDS
  > B: CREATE D
  > B: STORE D
  > B: END-TRANSACTION NO-AUDIT RDS
  > A: ABORT-TRANSACTION RDS
  > B: FIND FIRST D
  > B: FIND FIRST D
  > A: ABORT-TRANSACTION RDS
  > END
  $ for line in 1 2 3 4 5 6 7 8; do behind $line "$line [AB] DONE"; done | uniq -c
        8 EXCEPTION NOTFOUND D EXCEPTION NORECORD D CONTROL 0 NEXT 1
  $ behind 9 '9 B EXCEPTION ABORT B'
  EXCEPTION NOTFOUND D EXCEPTION NORECORD D CONTROL 0 NEXT 1
  $ behind 10 '10 B EXCEPTION NOTFOUND D'
  EXCEPTION NOTFOUND D EXCEPTION NORECORD D CONTROL 0 NEXT 1
  $ behind 11 '11 A EXCEPTION AUDITERROR A'
  EXCEPTION NOTFOUND D EXCEPTION NORECORD D CONTROL 0 NEXT 1

Behind a syncpoint it is there, and a back-out that follows, killed too, leaves it so.

  $ { sed 's/^A: ABORT.*/A: END-TRANSACTION NO-AUDIT RDS SYNC/; 8q' script; printf 'A: BEGIN-TRANSACTION NO-AUDIT RDS\nB: BEGIN-TRANSACTION NO-AUDIT RDS\nB: CREATE D\nB: PUT D X = 7\nB: STORE D\nB: END-TRANSACTION NO-AUDIT RDS\nA: ABORT-TRANSACTION RDS\n'; } > longer && mv longer script
  $ behind 8 'SYNCPOINT 1'
  DONE DONE X=NULL CONTROL 1 NEXT 2
  $ for line in 9 10 11 12 13 14 15; do behind $line "$line [AB] DONE"; done | uniq -c
        7 DONE DONE X=NULL CONTROL 1 NEXT 2
