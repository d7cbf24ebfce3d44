What `run` refuses is refused before anything is changed. Without a database.

  $ mkdir db && cd db
  $ echo 'A: OPEN INQUIRY' > ../look
  $ "$DMS" run < ../look
  dms: no database
  dms: go to the folder of a database, or make one by dms compile and dms initialize
  [3]
  $ ls
  $ "$DMS" compile <<'END'
  > AUDIT TRAIL (BLOCKS = 8, FILES = 100);
  > RDS RESTART DATA SET (PID ALPHA(10););
  > D DATA SET (X NUMBER(4););
  > END
  COMPILED 2 STRUCTURES
  $ cksum F*.DMS > ../before
  $ "$DMS" run < ../look
  dms: no database
  dms: go to the folder of a database, or make one by dms compile and dms initialize
  [3]
  $ cksum F*.DMS | cmp - ../before
  $ ls
  F00001.DMS

Words, and the folder in use.

  $ "$DMS" initialize
  INITIALIZED AT POINT 0
  $ cksum F*.DMS > ../before
  $ for words in 'run x' 'run 0' 'Run' 'run run' 'x run'; do "$DMS" $words < ../look; echo $?; done 2>&1 | sort | uniq -c
        5 1
        5 dms: bad words
        5 dms: see dms --help
        3 dms: usage: dms run < FILE
  $ flock . "$DMS" run < ../look
  dms: the folder is in use
  dms: wait until the other command in this folder has ended
  [5]
  $ "$DMS" run < ../look >> F10001.DMS
  dms: output fault
  dms: standard output is a file of a database; print to another place
  [10]
  $ cksum F*.DMS | cmp - ../before

An audit of four files. Twenty transactions, each with a syncpoint, take blocks 4 to 25 with two control points, and the end takes block 26.

  $ { echo 'A: OPEN UPDATE'; for n in $(seq 20); do printf 'A: BEGIN-TRANSACTION NO-AUDIT RDS\nA: CREATE D\nA: PUT D X = %d\nA: STORE D\nA: END-TRANSACTION NO-AUDIT RDS SYNC\n' $n; done; } > ../script
  $ "$DMS" run < ../script | tail -n 2
  101 A DONE
  SYNCPOINT 20
  $ "$DMS" print audit | grep -E 'CONTROL|BEGIN'
  1 1 CONTROL 0 NEXT 1
  1 2 BEGIN 0 HALTLOAD
  1 3 CONTROL 0 NEXT 1
  2 6 CONTROL 10 NEXT 11
  4 1 CONTROL 20 NEXT 21
  4 2 CONTROL 20 NEXT 21
  $ cd ..
  $ printf 'A: OPEN INQUIRY\nA: FIND LAST D\nA: GET D\n' > look

In each row a change of the folder, and then what `run` answers. Nothing has changed by then.

  $ put() { printf "\\$(printf %03o "0x$3")" | dd of=$1 bs=1 seek=$2 conv=notrunc status=none; }
  $ after() { rm -rf t; cp -r db t; cd t; eval "$1"; cksum F*.DMS > ../before; "$DMS" run < ../look 2>&1; echo "status $?"; cksum F*.DMS | cmp - ../before; cd ..; }

A sealed block, or a header, that can't be read.

  $ after 'put F10001.DMS 4096 ff'
  dms: file 10001 block 1 damaged
  dms: put back a copy of the whole database
  status 9
  $ after 'put F10002.DMS 12288 ff'
  dms: file 10002 block 3 damaged
  dms: put back a copy of the whole database
  status 9
  $ after 'put F10003.DMS 0 45'
  dms: file 10003 block 0 damaged
  dms: put back a copy of the whole database
  status 9
  $ after 'truncate -s 9000 F10004.DMS'
  dms: file 10004 block 2 damaged
  dms: put back a copy of the whole database
  status 9

A gate that is shut two files before the last; a file that is missing; one of another database.

  $ after 'put F10001.DMS 519 00'
  dms: audit file 1 unsealed
  dms: put back all files of one copy of the database
  status 4
  $ after 'put F10002.DMS 512 07'
  dms: audit file 2 unsealed
  dms: put back all files of one copy of the database
  status 4
  $ after 'rm F10004.DMS'
  dms: audit file 4 missing
  dms: put F10004.DMS back, as it was
  status 4
  $ after 'rm F10003.DMS F10004.DMS'
  dms: audit file 3 missing
  dms: put F10003.DMS back, as it was
  status 4
  $ after 'put F10003.DMS 17 05'
  dms: audit file 3 of another database
  dms: put back all files of one copy of the database
  status 4

No database: the description can't be read, its gate or that of the database is shut, or no audit file is there.

  $ for change in 'put F00001.DMS 0 00' 'put F00001.DMS 1 00' 'put F00001.DMS 6 45' 'rm F00001.DMS' 'rm F10*.DMS'; do after "$change"; done | sort | uniq -c
        4 dms: F00001.DMS isn't the description of the database whose files are here: put it back; initialize would empty them
        5 dms: no database
        1 dms: the audit of the database is gone: put back a copy of the whole database
        5 status 3

Old audit files may be removed from the front. Point 20 stands in file 3, and the last control point before it in file 2: so file 1 may go, and file 2 must stay.

  $ rm -rf t; cp -r db t; cd t; rm F10001.DMS
  $ "$DMS" run < ../look
  1 A DONE
  2 A DONE
  3 A DONE X=20
  $ cd ..
  $ after 'rm F10001.DMS F10002.DMS'
  dms: audit file 2 missing
  dms: put F10002.DMS back, as it was
  status 4
  $ after 'rm F10002.DMS'
  dms: audit file 2 missing
  dms: put F10002.DMS back, as it was
  status 4
  $ cp db/F10002.DMS t/; cd t; "$DMS" run < ../look
  1 A DONE
  2 A DONE
  3 A DONE X=20
  $ cd ..

A structure file that is lost. What the audit tells of its blocks from the last control point before point 20 on is written anew.

  $ rm -rf t; cp -r db t; cd t; rm F30002.DMS
  $ "$DMS" run < ../look
  1 A DONE
  2 A DONE
  3 A DONE X=20

Behind point 21, which changed no block, it tells of none, and the first block that isn't there is damaged. No line is answered.

  $ printf 'A: OPEN UPDATE\nA: BEGIN-TRANSACTION NO-AUDIT RDS\nA: END-TRANSACTION NO-AUDIT RDS SYNC\n' | "$DMS" run
  1 A DONE
  2 A DONE
  3 A DONE
  SYNCPOINT 21
  $ mv F30002.DMS ../kept
  $ "$DMS" run < ../look
  dms: file 30002 block 0 damaged
  dms: F30002.DMS of D is missing or too short: rebuild from a dump, or put the file back
  [9]
  $ mv ../kept F30002.DMS; "$DMS" run < ../look
  1 A DONE
  2 A DONE
  3 A DONE X=20
  $ cd ..

An input that fails, an output that fails, and a script that is too long: nothing is closed, and the next run recovers.

  $ more='A: OPEN UPDATE\nA: BEGIN-TRANSACTION NO-AUDIT RDS\nA: CREATE D\nA: PUT D X = 21\nA: STORE D\nA: END-TRANSACTION NO-AUDIT RDS SYNC\nA: BEGIN-TRANSACTION NO-AUDIT RDS\nA: CREATE D\nA: PUT D X = 22\nA: STORE D\n'
  $ rm -rf t; cp -r db t; cd t
  $ "$DMS" run < /
  dms: input fault
  dms: standard input: Is a directory
  [6]
  $ "$DMS" run <&-
  dms: input fault
  dms: standard input: Bad file descriptor
  [6]
  $ printf "$more" | "$DMS" run > /dev/full
  dms: output fault
  dms: standard output: No space left on device
  [10]
  $ "$DMS" run < ../look | tail -n 1
  3 A DONE X=20
  $ { printf "$more"; yes '' | head -n 999991; } | "$DMS" run | tail -n 1
  dms: too many lines
  dms: look what was carried out, and divide the rest of the script
  10 A DONE
  $ "$DMS" run < ../look | tail -n 1
  3 A DONE X=21
  $ cd ..

A disk that is full, here a file that may not grow beyond 20 KiB, which are the header and four blocks of the audit: what was printed before stands, and the next run recovers.

  $ mkdir small && cd small
  $ printf 'RDS RESTART DATA SET (PID ALPHA(10););\nD DATA SET (X NUMBER(4););\n' | "$DMS" compile
  COMPILED 2 STRUCTURES
  $ "$DMS" initialize
  INITIALIZED AT POINT 0
  $ bash -c 'trap "" XFSZ; ulimit -f 20; exec "$DMS" run' < ../script
  1 A DONE
  2 A DONE
  3 A DONE
  4 A DONE
  5 A DONE
  6 A DONE
  SYNCPOINT 1
  7 A DONE
  8 A DONE
  9 A DONE
  10 A DONE
  dms: disk fault
  dms: F10001.DMS: File too large
  [5]
  $ "$DMS" run < ../look
  1 A DONE
  2 A DONE
  3 A DONE X=1
  $ bash -c 'trap "" XFSZ; ulimit -f 4; exec "$DMS" run' < ../look
  dms: disk fault
  dms: F10001.DMS: File too large
  [5]
  $ "$DMS" run < ../look | tail -n 1
  3 A DONE X=1
