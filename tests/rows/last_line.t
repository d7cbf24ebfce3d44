The last line of an input needs no line feed, whatever it is: of a schema, of a script, or the word SCRIPT.

  $ mkdir db && cd db
  $ printf 'RDS RESTART DATA SET (PID ALPHA(10););\nD DATA SET (X NUMBER(4););' > schema
  $ "$DMS" try < schema
  $ { cat schema; printf '\nSCRIPT'; } | "$DMS" try
  $ { cat schema; printf '\nSCRIPT\nA: OPEN UPDATE'; } | "$DMS" try
  1 A DONE
  $ "$DMS" compile < schema
  COMPILED 2 STRUCTURES
  $ "$DMS" initialize
  INITIALIZED AT POINT 0
  $ printf 'A: OPEN UPDATE\nA: CLOSE' | "$DMS" run
  1 A DONE
  2 A DONE
  $ printf 'A: CLOSE' | "$DMS" run
  1 A EXCEPTION OPENERROR A
