An audit that is full: what is there is read by a script, and brought into a new database by another one.

  $ mkdir old new && cd old
  $ schema() { printf 'PARAMETERS (CONTROLPOINT = 10000 SYNCPOINTS);\nAUDIT TRAIL (BLOCKS = 8, FILES = %s);\nRDS RESTART DATA SET (PID ALPHA(10););\nD DATA SET (X NUMBER(4););\n' "$1"; }
  $ schema 2 | "$DMS" compile && "$DMS" initialize
  COMPILED 2 STRUCTURES
  INITIALIZED AT POINT 0
  $ transaction() { printf 'A: BEGIN-TRANSACTION NO-AUDIT RDS\nA: CREATE D\nA: PUT D X = %d\nA: STORE D\nA: END-TRANSACTION NO-AUDIT RDS SYNC\n' "$1"; }
  $ { echo 'A: OPEN UPDATE'; for n in $(seq 20); do transaction $n; done; } > ../script
  $ "$DMS" run < ../script > ../out
  dms: audit file 2 full
  dms: bring its records over to a new database; docs/GUIDE.md, A full audit
  [8]
  $ tail -n 1 ../out
  69 A DONE

The records, as the lines that store them.

  $ export DMS
  $ unload="$TESTDIR"/../../examples/unload.sh
  $ "$unload" RDS D > ../lines
  $ grep -c PUT ../lines
  13

A new database with more files, and the same records.

  $ cd ../new
  $ schema 9900 | "$DMS" compile && "$DMS" initialize
  COMPILED 2 STRUCTURES
  INITIALIZED AT POINT 0
  $ "$DMS" run < ../lines | tail -n 1
  66 A DONE
  $ "$unload" RDS D | cmp - ../lines
  $ grep PUT ../lines | sort -u | wc -l
  13
