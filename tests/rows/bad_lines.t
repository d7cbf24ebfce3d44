Lines that aren't of the script's language, and a program that isn't open.

  $ { cat <<'END'
  > RDS RESTART DATA SET (PID ALPHA(10););
  > D DATA SET (X NUMBER(4););
  > SCRIPT
  > END
  > head -c 2001 /dev/zero | tr '\0' 'A'
  > printf '\nA: OPEN UPDATE\n'; } > input
  $ "$DMS" try < input
  1 BADLINE 2001
  2 A DONE

  $ "$DMS" try <<'END'
  > RDS RESTART DATA SET (PID ALPHA(10););
  > D DATA SET (X NUMBER(4););
  > SCRIPT
  > A: FIND X
  > END
  1 BADLINE 9

  $ "$DMS" try <<'END'
  > RDS RESTART DATA SET (PID ALPHA(10););
  > D DATA SET (X NUMBER(4););
  > SCRIPT
  > A: CLOSE
  > END
  1 A EXCEPTION OPENERROR A
