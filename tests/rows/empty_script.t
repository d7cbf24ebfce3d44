A script without lines prints nothing; so does a text without a line SCRIPT.

  $ "$DMS" try <<'END'
  > RDS RESTART DATA SET (PID ALPHA(10););
  > D DATA SET (X NUMBER(4););
  > SCRIPT
  > END

  $ "$DMS" try <<'END'
  > RDS RESTART DATA SET (PID ALPHA(10););
  > D DATA SET (X NUMBER(4););
  > END
