A back-out reads the audit from the last control point on, and not what was logged before. A first run stores 1,000 records, which makes an audit of more than 200,000 bytes. How many bytes a command reads is told by the system: the shell's own count has those of its children that have ended. Where the system doesn't count so, the rest is skipped.

  $ test -r "/proc/$$/io" || exit 80
  $ readings() { sed -n 's/^rchar: //p' "/proc/$$/io"; }
  $ before=$(readings); head -c 1000000 /dev/zero > /dev/null; test "$(($(readings) - before))" -ge 1000000 || exit 80

  $ mkdir db && cd db
  $ "$DMS" compile <<'END'
  > AUDIT TRAIL (BLOCKS = 64, FILES = 100);
  > RDS RESTART DATA SET (PID ALPHA(10););
  > D DATA SET (X NUMBER(4); A ALPHA(200););
  > END
  COMPILED 2 STRUCTURES
  $ "$DMS" initialize
  INITIALIZED AT POINT 0
  $ begin='A: BEGIN-TRANSACTION NO-AUDIT RDS\n'; end='A: END-TRANSACTION NO-AUDIT RDS\n'
  $ text=$(printf '%0200d' 0)
  $ stores() { printf 'A: CREATE D\nA: PUT D X = %d, A = "%s"\nA: STORE D\n' "$1" "$text"; }
  $ { printf "A: OPEN UPDATE\n$begin"; for i in $(seq 1000); do stores "$i"; done; printf "$end"; } | "$DMS" run | tail -n 1
  3003 A DONE
  $ test "$(cat F1*.DMS | wc -c)" -gt 200000 || echo short
  $ reads() { before=$(readings); "$DMS" run < "$1" > ../answers; after=$(readings); bytes=$((after - before)); grep -v -c 'A DONE$' ../answers; }

A run that does nothing reads the whole audit once, at its opening. One in which a transaction ends and then ten are backed out, each with one that ends behind it, reads less than twice as much; it would read eleven times as much if each back-out read the whole audit. Each of these transactions stores the first record again.

  $ again() { printf "$begin"; printf 'A: LOCK FIRST D\nA: PUT D X = %d\nA: STORE D\n' "$1"; }
  $ abort='A: ABORT-TRANSACTION RDS\n'
  $ echo 'A: OPEN UPDATE' > ../opens
  $ { cat ../opens; again 2000; printf "$end"; for i in $(seq 10); do again "$((2000 + i))"; printf "$abort"; again "$((3000 + i))"; printf "$end"; done; } > ../backs_out
  $ reads ../opens; opening=$bytes
  0
  $ test "$opening" -gt 200000 || echo "$opening"
  $ reads ../backs_out; backing=$bytes; tail -n 1 ../answers
  0
  106 A DONE
  $ test "$backing" -lt "$((2 * opening))" || echo "$backing of $opening"

So does one in which ten are backed out before any ends: the first back-out goes back to the point of the opening, and each later one to the same point again.

  $ { cat ../opens; for i in $(seq 10); do again "$((4000 + i))"; printf "$abort"; done; } > ../ends_nothing
  $ reads ../opens; opening=$bytes
  0
  $ reads ../ends_nothing; backing=$bytes; tail -n 1 ../answers
  0
  51 A DONE
  $ test "$backing" -lt "$((2 * opening))" || echo "$backing of $opening"
  $ printf 'A: OPEN INQUIRY\nA: FIND FIRST D\nA: GET D X\n' | "$DMS" run
  1 A DONE
  2 A DONE
  3 A DONE X=3010

A control point has the number of the quiet point that it follows. Behind one that a run makes after 1,000 stores, a back-out doesn't read what these logged, more than 200,000 bytes: the run reads less than 50,000 more than without it. The one line of each that isn't DONE is its syncpoint.

  $ mkdir ../control && cd ../control
  $ "$DMS" compile <<'END'
  > AUDIT TRAIL (BLOCKS = 64, FILES = 100);
  > PARAMETERS (CONTROLPOINT = 1 SYNCPOINTS);
  > RDS RESTART DATA SET (PID ALPHA(10););
  > D DATA SET (X NUMBER(4); A ALPHA(200););
  > END
  COMPILED 2 STRUCTURES
  $ "$DMS" initialize
  INITIALIZED AT POINT 0
  $ cp -r . ../again
  $ { cat ../opens; printf "$begin"; for i in $(seq 1000); do stores "$i"; done; printf 'A: END-TRANSACTION NO-AUDIT RDS SYNC\n'; } > ../stores
  $ { cat ../stores; again 5000; printf "$abort"; } > ../backs_out
  $ reads ../stores; storing=$bytes; tail -n 2 ../answers
  1
  3003 A DONE
  SYNCPOINT 1
  $ test "$(cat F1*.DMS | wc -c)" -gt 200000 || echo short
  $ cd ../again
  $ reads ../backs_out; backing=$bytes; tail -n 1 ../answers
  1
  3008 A DONE
  $ test "$((backing - storing))" -lt 50000 || echo "$backing, $storing"
  $ printf 'A: OPEN INQUIRY\nA: FIND FIRST D\nA: GET D X\n' | "$DMS" run
  1 A DONE
  2 A DONE
  3 A DONE X=1
