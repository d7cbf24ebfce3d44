Where standard error is a terminal and standard output is none, a run shows how far it is on one line that is rewritten.

  $ mkdir db && cd db
  $ printf 'AUDIT TRAIL (FILES = 9900);\nRDS RESTART DATA SET (PID ALPHA(10););\nD DATA SET (X NUMBER(4););\n' | "$DMS" compile
  COMPILED 2 STRUCTURES
  $ "$DMS" initialize
  INITIALIZED AT POINT 0
  $ cat > ../slow <<'END'
  > echo 'A: OPEN UPDATE'
  > sleep 1.5
  > echo 'A: BEGIN-TRANSACTION NO-AUDIT RDS'
  > echo 'A: END-TRANSACTION NO-AUDIT RDS SYNC'
  > sleep 1.5
  > echo 'A: CLOSE'
  > END
  $ sh ../slow > ../script
  $ script -qec 'sh ../slow | "$DMS" run > ../out' ../typescript > /dev/null
  $ cat ../out
  1 A DONE
  2 A DONE
  3 A DONE
  SYNCPOINT 1
  4 A DONE
  $ sed -e '1d' -e '/^Script done/d' ../typescript | tr -d '\n' | tr '\r' '\n' | sed '/^$/d' | sort -u
  dms: 1 lines
  dms: 3 lines, SYNCPOINT 1
  dms: 4 lines, SYNCPOINT 1

Nothing is shown where standard error is no terminal, or standard output is one.

  $ sh ../slow | "$DMS" run > ../out
  $ script -qec 'sh ../slow | "$DMS" run' ../typescript > /dev/null
  $ grep -c lines ../typescript
  0
  [1]

Of a statement it shows the audit file that is read or written, and how much of a dump.

  $ echo '(sleep 1.5; echo "DUMP TO 1") | "$DMS" utility > ../out' > ../dump
  $ script -qec 'sh ../dump' ../typescript > /dev/null
  $ cat ../out
  DUMPED 1 AT POINT 3
  $ sed -e '1d' -e '/^Script done/d' ../typescript | tr -d '\n' | tr '\r' '\n' | sed -e '/^$/d' -e 's/ *$//'
  dms: beginning
  dms: dump 1, 100 %


A statement shows it on the terminal that its answer is printed on, too; the answer stands on a line of its own.

  $ echo '(sleep 1.5; echo "DUMP TO 2") | "$DMS" utility' > ../dump
  $ script -qec 'sh ../dump' ../typescript > /dev/null
  $ sed -e '1d' -e '/^Script done/d' ../typescript | tr '\r' '\n' | sed -e '/^$/d' -e 's/ *$//' | sort -u
  DUMPED 2 AT POINT 3
  dms: beginning
  dms: dump 2, 100 %
