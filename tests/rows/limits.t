A script of more than 1,000,000 lines.

  $ { echo 'RDS RESTART DATA SET (PID ALPHA(10););'; echo SCRIPT; yes '' | head -n 1000000; } > input
  $ "$DMS" try < input
  $ echo 'A: OPEN UPDATE' >> input
  $ "$DMS" try < input
  dms: too many lines
  [8]

A script of more than 2,147,483,648 bytes.

  $ printf 'RDS RESTART DATA SET (PID ALPHA(10););\nSCRIPT\n' > schema
  $ { cat schema; head -c 2147483648 /dev/zero | tr '\0' ' '; } | "$DMS" try
  1 BADLINE 2001
  $ { cat schema; head -c 2147483649 /dev/zero | tr '\0' ' '; } | "$DMS" try
  dms: too many bytes
  [8]

At most 10,000 lines are held; the one too many prints nothing.

  $ { cat <<'END'
  > RDS RESTART DATA SET (PID ALPHA(10););
  > SCRIPT
  > A: OPEN UPDATE
  > B: OPEN UPDATE
  > C: OPEN UPDATE
  > A: BEGIN-TRANSACTION NO-AUDIT RDS
  > B: BEGIN-TRANSACTION NO-AUDIT RDS
  > A: END-TRANSACTION NO-AUDIT RDS SYNC
  > END
  > yes 'C: BEGIN-TRANSACTION NO-AUDIT RDS' | head -n 10000; } > input
  $ "$DMS" try < input > out
  $ wc -l < out
  10007
  $ tail -n 2 out
  10005 C UNANSWERED
  10006 C UNANSWERED
  $ echo 'C: CLOSE' >> input
  $ "$DMS" try < input
  1 A DONE
  2 B DONE
  3 C DONE
  4 A DONE
  5 B DONE
  6 A DONE
  7 C WAITS FOR B
  dms: too many held lines
  [8]

Printing and reading that fail.

  $ printf 'RDS RESTART DATA SET (PID ALPHA(10););\nSCRIPT\nA: CLOSE\n' > input
  $ "$DMS" try < input > /dev/full
  dms: output fault
  [10]
  $ "$DMS" try < /
  dms: input fault
  [6]
