A run that is killed leaves the database of a quiet point: at least that of the last SYNCPOINT that was printed, and nothing of a transaction that didn't end.

  $ mkdir new && cd new
  $ "$DMS" compile <<'END'
  > RDS RESTART DATA SET (PID ALPHA(10); STEP NUMBER(4););
  > ACCOUNT DATA SET (ANO NUMBER(4) REQUIRED; BAL NUMBER(6););
  > ACCT-SET SET OF ACCOUNT KEY IS ANO;
  > RICH SUBSET OF ACCOUNT WHERE BAL > 100 KEY IS BAL DESCENDING, DUPLICATES;
  > END
  COMPILED 4 STRUCTURES
  $ "$DMS" initialize
  INITIALIZED AT POINT 0
  $ cd ..
  $ cat > script <<'END'
  > A: OPEN UPDATE
  > A: BEGIN-TRANSACTION NO-AUDIT RDS
  > A: CREATE ACCOUNT
  > A: PUT ACCOUNT ANO = 1, BAL = 50
  > A: STORE ACCOUNT
  > A: END-TRANSACTION NO-AUDIT RDS SYNC
  > A: BEGIN-TRANSACTION NO-AUDIT RDS
  > A: CREATE ACCOUNT
  > A: PUT ACCOUNT ANO = 2, BAL = 500
  > A: STORE ACCOUNT
  > A: END-TRANSACTION NO-AUDIT RDS
  > A: BEGIN-TRANSACTION NO-AUDIT RDS
  > A: CREATE ACCOUNT
  > A: PUT ACCOUNT ANO = 3, BAL = 400
  > A: STORE ACCOUNT
  > A: END-TRANSACTION NO-AUDIT RDS SYNC
  > A: BEGIN-TRANSACTION NO-AUDIT RDS
  > A: CREATE ACCOUNT
  > A: PUT ACCOUNT ANO = 4, BAL = 900
  > A: STORE ACCOUNT
  > A: PUT ACCOUNT BAL = 90
  > A: STORE ACCOUNT
  > A: END-TRANSACTION NO-AUDIT RDS
  > END
  $ cat > look <<'END'
  > A: OPEN INQUIRY
  > A: FIND LAST ACCT-SET
  > A: GET ACCOUNT ANO
  > A: FIND FIRST RICH
  > A: GET ACCOUNT ANO
  > END

The script's lines come through a pipe. The run is killed when the line is printed that is waited for. Another run then tells the last account and the
richest one, on one line.

  $ mkfifo input
  $ start() { : > out; cd db; "$DMS" run < ../input > ../out & exec 3> ../input; cd ..; }
  $ wait_for() { for turn in $(seq 600); do grep -qx "$1" out && return; sleep 0.1; done; echo "no line '$1'"; }
  $ stop() { kill -${1:-9} $!; wait $! 2> /dev/null; exec 3>&-; }
  $ left() { (cd db; "$DMS" run < ../look) | tail -n +2 | cut -d' ' -f3- | paste -s -d' '; }
  $ behind() { rm -rf db; cp -r new db; start; head -n $1 script >&3; wait_for "${2:-$1 A DONE}"; stop; left; }

In the first transaction.

  $ for line in 1 2 3 4 5; do behind $line; done | uniq -c
        5 EXCEPTION NOTFOUND ACCT-SET EXCEPTION NORECORD ACCOUNT EXCEPTION NOTFOUND RICH EXCEPTION NORECORD ACCOUNT

Behind the first syncpoint, and in the transaction that follows.

  $ { behind 6 'SYNCPOINT 1'; for line in 7 8 9 10; do behind $line; done; } | uniq -c
        5 DONE DONE ANO=1 EXCEPTION NOTFOUND RICH DONE ANO=1

Behind the end of a transaction without a syncpoint, and in the one that follows: what ended may be there or not, but whole.

  $ for line in 11 12 13 14 15; do behind $line; done
  DONE DONE ANO=(1 EXCEPTION NOTFOUND RICH DONE ANO=1|2 DONE DONE ANO=2) (re)
  DONE DONE ANO=(1 EXCEPTION NOTFOUND RICH DONE ANO=1|2 DONE DONE ANO=2) (re)
  DONE DONE ANO=(1 EXCEPTION NOTFOUND RICH DONE ANO=1|2 DONE DONE ANO=2) (re)
  DONE DONE ANO=(1 EXCEPTION NOTFOUND RICH DONE ANO=1|2 DONE DONE ANO=2) (re)
  DONE DONE ANO=(1 EXCEPTION NOTFOUND RICH DONE ANO=1|2 DONE DONE ANO=2) (re)

Behind the second syncpoint, which covers both, and in the last transaction, which stores its record twice.

  $ { behind 16 'SYNCPOINT 3'; for line in 17 18 19 20 21 22; do behind $line; done; } | uniq -c
        7 DONE DONE ANO=3 DONE DONE ANO=2
  $ behind 23
  DONE DONE ANO=[34] DONE DONE ANO=2 (re)

Other signals stop a run as well.

  $ for signal in HUP TERM; do rm -rf db; cp -r new db; start; head -n 20 script >&3; wait_for '20 A DONE'; stop $signal; left; done | uniq -c
        2 DONE DONE ANO=3 DONE DONE ANO=2

Killed, gone on with, and killed once more. Points go on from the last one that is there.

  $ behind 6 'SYNCPOINT 1'
  DONE DONE ANO=1 EXCEPTION NOTFOUND RICH DONE ANO=1
  $ start; { head -n 1 script; sed -n 12,20p script; } >&3; wait_for '10 A DONE'; stop
  $ grep SYNC out
  SYNCPOINT 2
  $ left
  DONE DONE ANO=3 DONE DONE ANO=3
  $ (cd db; "$DMS" print audit | tail -n 1 | cut -d' ' -f3-)
  CONTROL 2 NEXT 3

While a run works in the folder no other one does.

  $ start; head -n 1 script >&3; wait_for '1 A DONE'
  $ (cd db; "$DMS" run < ../look; "$DMS" print audit)
  dms: the folder is in use
  dms: wait until the other command in this folder has ended
  dms: the folder is in use
  dms: wait until the other command in this folder has ended
  [5]
  $ stop
  $ left
  DONE DONE ANO=3 DONE DONE ANO=3

Killed at any time, in a long script: each transaction stores two accounts, n and n + 5000, and makes point n; each fifth one asks for a syncpoint. The point that is left
isn't below the last one that was printed, and the accounts of that point are there and none of the next one.

  $ for n in $(seq 300); do
  >   printf 'A: BEGIN-TRANSACTION NO-AUDIT RDS\nA: CREATE ACCOUNT\nA: PUT ACCOUNT ANO = %d\nA: STORE ACCOUNT\n' $n
  >   printf 'A: CREATE ACCOUNT\nA: PUT ACCOUNT ANO = %d\nA: STORE ACCOUNT\nA: END-TRANSACTION NO-AUDIT RDS' $((n + 5000))
  >   if [ $((n % 5)) = 0 ]; then echo ' SYNC'; else echo; fi
  > done > transactions
  $ { echo 'A: OPEN UPDATE'; cat transactions; } > many
  $ for time in 0.01 0.02 0.04 0.08 0.16 0.32 0.64; do
  >   rm -rf db; cp -r new db; cd db
  >   timeout --foreground -s KILL $time "$DMS" run < ../many > ../out
  >   told=$(awk '$1 == "SYNCPOINT" { n = $2 } END { print n + 0 }' ../out)
  >   "$DMS" run < /dev/null
  >   point=$("$DMS" print audit | awk '$3 == "CONTROL" { n = $4 } END { print n }')
  >   [ $point -ge $told ] && echo 'not below the last syncpoint'
  >   for n in $point $((point + 5000)) $((point + 1)) $((point + 5001)); do echo "A: FIND ACCT-SET AT ANO = $n"; done > ../keys
  >   found=$({ head -n 1 ../look; cat ../keys; } | "$DMS" run | tail -n +2 | cut -d' ' -f3 | paste -s -d' ')
  >   [ $point = 0 ] && [ "$found" = 'EXCEPTION EXCEPTION EXCEPTION EXCEPTION' ] && found='DONE DONE EXCEPTION EXCEPTION'
  >   echo "$found"
  >   cd ..
  > done | sort | uniq -c
        7 DONE DONE EXCEPTION EXCEPTION
        7 not below the last syncpoint
