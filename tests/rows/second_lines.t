Behind the line of a fault stands what helps. The first line is the same with it or without.

A place in the text of a schema: line and column, the line, and a mark under the byte. Where only one word or sign can stand there, it is said.

  $ cat > schema <<'END'
  > PARAMETERS (SYNCPOINT = 100 TRANSACTIONS);
  > RDS RESTART DATA SET (
  >   STEP NUMBER 6;
  > );
  > END
  $ "$DMS" compile < schema
  dms: schema: unexpected at 81
  dms: line 3, column 15, where ( must stand
        STEP NUMBER 6;
                    ^
  [2]
  $ printf 'RDS RESTART DATA SET (X NUMBER(19););\n' | "$DMS" compile
  dms: schema: number out of range at 32
  dms: line 1, column 32
      RDS RESTART DATA SET (X NUMBER(19););
                                     ^
  [2]
  $ printf 'RDS RESTART DATA SET (X & NUMBER(4););\n' | "$DMS" compile
  dms: schema: bad character at 25
  dms: line 1, column 25
      RDS RESTART DATA SET (X & NUMBER(4););
                              ^
  [2]
  $ printf 'PARAMETERS (SYNCPOINT = 100);\n' | "$DMS" compile
  dms: schema: unexpected at 28
  dms: line 1, column 28, where TRANSACTIONS must stand
      PARAMETERS (SYNCPOINT = 100);
                                 ^
  [2]
  $ printf 'PARAMETERS (SYNCPOINT = 100 TRANSACTIONS, BUFFERS = 8, CONTROLPOINT = 2 SYNCPOINTS);\n' | "$DMS" compile
  dms: schema: unexpected at 54
  dms: line 1, column 54, where BLOCKS must stand
      ETERS (SYNCPOINT = 100 TRANSACTIONS, BUFFERS = 8, CONTROLPOINT = 2 SYNCP
                                                      ^
  [2]
  $ printf 'RDS RESTART SET (X NUMBER(4););\n' | "$DMS" compile
  dms: schema: unexpected at 13
  dms: line 1, column 13, where DATA must stand
      RDS RESTART SET (X NUMBER(4););
                  ^
  [2]
  $ printf 'D DATA SET (X NUMBER(4););\nS SET D KEY IS X;\n' | "$DMS" compile
  dms: schema: unexpected at 34
  dms: line 2, column 7, where OF must stand
      S SET D KEY IS X;
            ^
  [2]
  $ printf 'D DATA SET (X NUMBER(4););\nS SET OF D KEY X;\n' | "$DMS" compile
  dms: schema: unexpected at 43
  dms: line 2, column 16, where IS must stand
      S SET OF D KEY X;
                     ^
  [2]
  $ printf 'D DATA SET (X ALPHA(4;);\n' | "$DMS" compile
  dms: schema: unexpected at 22
  dms: line 1, column 22, where ) must stand
      D DATA SET (X ALPHA(4;);
                           ^
  [2]
  $ printf 'D DATA SET (X ALPHA;);\n' | "$DMS" compile
  dms: schema: unexpected at 20
  dms: line 1, column 20, where ( must stand
      D DATA SET (X ALPHA;);
                         ^
  [2]

Of `try` it stands at a terminal alone: else the line of the fault is all that goes to standard error.

  $ printf 'PARAMETERS (SYNCPOINT = 100);\n' > short
  $ "$DMS" try < short
  dms: schema: unexpected at 28
  [2]
  $ script -qec '"$DMS" try < short' /dev/null < /dev/null | tr -d '\r'
  dms: schema: unexpected at 28
  dms: line 1, column 28, where TRANSACTIONS must stand
      PARAMETERS (SYNCPOINT = 100);
                                 ^

So it is said where a line of its input is nearly SCRIPT.

  $ printf 'RDS RESTART DATA SET (X NUMBER(4););\nscript\nA: CLOSE\n' > nearly
  $ script -qec '"$DMS" try < nearly' /dev/null < /dev/null | tr -d '\r'
  dms: schema: unexpected at 38
  dms: line 2, column 1
      script
      ^
  dms: the line must be exactly SCRIPT

Where more can stand there nothing is said; the end of the text is said.

  $ printf 'D DATA SET (X NUMBER(4) X;);\n' | "$DMS" compile
  dms: schema: unexpected at 25
  dms: line 1, column 25
      D DATA SET (X NUMBER(4) X;);
                              ^
  [2]
  $ printf 'D DATA SET (X NUMBER(4);)' | "$DMS" compile
  dms: schema: unexpected at 26
  dms: line 1, column 26, the end of the text
      D DATA SET (X NUMBER(4);)
                               ^
  [2]
  $ printf 'D DATA SET (X NUMBER(4);)\nSCRIPT\nA: CLOSE\n' | "$DMS" compile
  dms: schema: unexpected at 27
  dms: line 2, column 1
      SCRIPT
      ^
  [2]

Of a long line a part is shown, a tab as a space, and a byte that is no printable character of ASCII as a question mark.

  $ { printf 'D DATA SET (\t\303\244'; } | "$DMS" compile
  dms: schema: bad character at 14
  dms: line 1, column 14
      D DATA SET ( ??
                   ^
  [2]
  $ { printf 'D DATA SET ('; for n in $(seq 30); do printf 'X%d NUMBER(4); ' $n; done; printf 'Y DATA; Z NUMBER(4););\n'; } | "$DMS" compile
  dms: schema: unexpected at 460
  dms: line 1, column 460, where SET must stand
       NUMBER(4); X29 NUMBER(4); X30 NUMBER(4); Y DATA; Z NUMBER(4););
                                                      ^
  [2]

Where a fault is one of a name, the place of that name is shown. Where it is a limit, it is said what has at most so many.

  $ printf 'RDS RESTART DATA SET (X NUMBER(4); X NUMBER(4););\n' | "$DMS" compile
  dms: schema: twice X
  dms: line 1, column 36
      RDS RESTART DATA SET (X NUMBER(4); X NUMBER(4););
                                         ^
  [2]

Where a name is refused its first place in the schema is shown, and of one that is declared twice the second.

  $ printf 'RDS RESTART DATA SET (X NUMBER(4););\nD DATA SET (\n  X NUMBER(4);\n);\nS SET OF D KEY IS (X, Y);\n' | "$DMS" compile
  dms: schema: unknown Y
  dms: line 5, column 23
      S SET OF D KEY IS (X, Y);
                            ^
  [2]
  $ printf 'RDS RESTART DATA SET (X NUMBER(4););\nD DATA SET (X NUMBER(4););\nS SET OF E KEY IS X;\n' | "$DMS" compile
  dms: schema: unknown E
  dms: line 3, column 10
      S SET OF E KEY IS X;
               ^
  [2]
  $ { printf 'RDS RESTART DATA SET ('; for n in $(seq 61); do printf 'X%d NUMBER(4); ' $n; done; echo ');'; } | "$DMS" compile
  dms: schema: more than 60
  dms: a data set has at most 60 items and links
  [2]
  $ printf 'RDS RESTART DATA SET (A ALPHA(200); B ALPHA(200); C ALPHA(200););\n' | "$DMS" compile
  dms: schema: record of 603 bytes
  dms: a record has at most 480 bytes; docs/GUIDE.md, The schema
  [2]
  $ printf 'RDS RESTART DATA SET (A ALPHA(200);); S SET OF RDS KEY IS A;\n' | "$DMS" compile
  dms: schema: key of 201 bytes
  dms: a key has at most 96 bytes; docs/GUIDE.md, The schema
  [2]
  $ printf 'D DATA SET (X NUMBER(4););\n' | "$DMS" compile
  dms: schema: no restart data set
  dms: a schema has one, as RDS RESTART DATA SET (STEP NUMBER(6););
  [2]

Words that are no command, but begin with one: how that is called.

  $ "$DMS" load 7
  dms: bad words
  dms: see dms --help
  dms: usage: dms load SEED N
  [1]
  $ "$DMS" print
  dms: bad words
  dms: see dms --help
  dms: usage: dms print audit
  [1]

A statement: the line with a mark, and the word that must stand there, if only one can.

  $ printf 'DUMP TO 0\n' | "$DMS" utility
  dms: bad statement at 9
  dms: line 1, column 9
      DUMP TO 0
              ^
  dms: the statements are in dms utility --help
  [12]
  $ printf '\n rebuild TO 4\n' | "$DMS" utility
  dms: bad statement at 11
  dms: line 2, column 10, where FROM must stand
       rebuild TO 4
               ^
  dms: the statements are in dms utility --help
  [12]

A call on a file that failed: the file and the system's own message.

  $ printf 'RDS RESTART DATA SET (PID ALPHA(10););\nD DATA SET (X NUMBER(4););\n' > schema
  $ mkdir folder && cd folder && mkdir F00001.DMS
  $ "$DMS" compile < ../schema
  dms: disk fault
  dms: F00001.DMS: not a regular file
  [5]
  $ rmdir F00001.DMS
  $ "$DMS" compile < ../schema && "$DMS" initialize
  COMPILED 2 STRUCTURES
  INITIALIZED AT POINT 0
  $ mkdir F10002.DMS
  $ "$DMS" run < /dev/null
  dms: disk fault
  dms: F10002.DMS: not a regular file
  [5]
  $ rmdir F10002.DMS

Reading and printing that failed.

  $ "$DMS" run < /
  dms: input fault
  dms: standard input: Is a directory
  [6]
  $ "$DMS" --help > /dev/full
  dms: output fault
  dms: standard output: No space left on device
  [10]

What the operator can do.

  $ mkdir ../empty && cd ../empty
  $ "$DMS" run < /dev/null
  dms: no database
  dms: go to the folder of a database, or make one by dms compile and dms initialize
  [3]
  $ "$DMS" initialize
  dms: no description
  dms: run dms compile in this folder first
  [4]
  $ "$DMS" compile < ../schema
  COMPILED 2 STRUCTURES
  $ "$DMS" compile < ../schema
  dms: exists already
  dms: F00001.DMS is a description; take another folder
  [11]
  $ "$DMS" initialize
  INITIALIZED AT POINT 0
  $ "$DMS" initialize
  dms: exists already
  dms: the folder has a database; take another folder
  [11]
  $ flock . "$DMS" run < /dev/null
  dms: the folder is in use
  dms: wait until the other command in this folder has ended
  [5]
  $ cp F10001.DMS F10003.DMS
  $ "$DMS" run < /dev/null
  dms: file 10003 block 0 damaged
  dms: put back a copy of the whole database, or take F10003.DMS out, if it isn't this database's
  [9]
  $ rm F10003.DMS
  $ "$DMS" run < /dev/null > F00001.DMS
  dms: output fault
  dms: standard output is a file of a database; print to another place
  [10]

Files of a database beside a description that is none, and without their audit.

  $ mkdir ../other && cd ../other
  $ "$DMS" compile < ../schema && "$DMS" initialize
  COMPILED 2 STRUCTURES
  INITIALIZED AT POINT 0
  $ mv F00001.DMS ../kept
  $ "$DMS" run < /dev/null
  dms: no database
  dms: F00001.DMS isn't the description of the database whose files are here: put it back; initialize would empty them
  [3]
  $ mv ../kept F00001.DMS
  $ printf 'A: OPEN UPDATE\nA: BEGIN-TRANSACTION NO-AUDIT RDS\nA: CREATE D\nA: STORE D\nA: END-TRANSACTION NO-AUDIT RDS\n' | "$DMS" run | tail -n 1
  5 A DONE
  $ echo 'DUMP TO 1' | "$DMS" utility
  DUMPED 1 AT POINT 1
  $ mv F10001.DMS ..
  $ "$DMS" run < /dev/null
  dms: no database
  dms: the audit of the database is gone: put back a copy of the whole database
  [3]
  $ mv ../F10001.DMS .

A dump that is there, one that isn't, and one that wasn't finished.

  $ echo 'DUMP TO 1' | "$DMS" utility
  dms: exists already
  dms: that dump is there; name another number, or remove its file first
  [11]
  $ echo 'REBUILD FROM 2' | "$DMS" utility
  dms: dump 2 missing
  dms: put F20002.DMS back, as it was, or name another dump
  [4]
  $ printf '\000' | dd of=F20001.DMS conv=notrunc 2> /dev/null
  $ echo 'REBUILD FROM 1' | "$DMS" utility
  dms: dump 1 unsealed
  dms: the dump wasn't finished: name another, or remove F20001.DMS
  [4]

A structure file that is too short, and a block that has no valid form.

  $ printf 'A: OPEN UPDATE\nA: BEGIN-TRANSACTION NO-AUDIT RDS\nA: END-TRANSACTION NO-AUDIT RDS\n' | "$DMS" run | tail -n 1
  3 A DONE
  $ cp F30002.DMS ../kept; truncate -s 1000 F30002.DMS
  $ "$DMS" run < /dev/null
  dms: file 30002 block 0 damaged
  dms: F30002.DMS of D is missing or too short: rebuild from a dump, or put the file back
  [9]
  $ cp ../kept F30002.DMS; printf '\007' | dd of=F30002.DMS conv=notrunc 2> /dev/null
  $ printf 'A: OPEN INQUIRY\nA: FIND FIRST D\n' | "$DMS" run
  1 A DONE
  dms: file 30002 block 0 damaged
  dms: reconstruct row 0 of D, or rebuild, from a dump, or put back a copy of the whole database
  [9]
  $ cp ../kept F30002.DMS

A stream that doesn't wait.

  $ mkfifo ../pipe
  $ python3 -c 'import os, subprocess, sys; fd = os.open("../pipe", os.O_RDWR | os.O_NONBLOCK); sys.exit(subprocess.run([os.environ["DMS"], "run"], stdin=fd).returncode)'
  dms: input fault
  dms: standard input: Resource temporarily unavailable
  dms: the stream doesn't wait (O_NONBLOCK): put cat between
  [6]

A person at a terminal is told what is waited for.

  $ script -qec '"$DMS" run; echo status $?' /dev/null < /dev/null | tr -d '\r\004\010' | sed 's/^^D//'
  dms: lines of a script; Ctrl-D ends it
  status 0
