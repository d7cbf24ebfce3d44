One program at a time works in a folder.

  $ printf 'RDS RESTART DATA SET (PID ALPHA(10););\nD DATA SET (X NUMBER(4););\n' > schema
  $ { cat schema; printf 'SCRIPT\nA: CLOSE\n'; } > script
  $ mkfifo input killed
  $ mkdir db && cd db

The first one waits for its input. It has begun to read when a pipe took more than it holds.

  $ blanks() { head -c 500000 /dev/zero | tr '\0' ' '; }
  $ "$DMS" compile < ../input > ../first &
  $ exec 3> ../input
  $ blanks >&3
  $ "$DMS" compile < ../schema
  dms: the folder is in use
  dms: wait until the other command in this folder has ended
  [5]
  $ ls

What touches no file runs meanwhile; so do bad words, and a program in another folder.

  $ "$DMS" try < ../script
  1 A EXCEPTION OPENERROR A
  $ "$DMS" --version
  dms 0.1.0
  $ "$DMS" tri
  dms: bad words
  dms: see dms --help
  [1]
  $ mkdir ../other && (cd ../other && "$DMS" compile < ../schema)
  COMPILED 2 STRUCTURES

The first one goes on as if it were alone.

  $ cat ../schema >&3
  $ exec 3>&-
  $ wait
  $ cat ../first
  COMPILED 2 STRUCTURES
  $ od -An -v -tx1 F00001.DMS | tr -d ' \n'; echo
  01000000003e444d535300010064000a01000200270f000202035244530000000f42400103504944010a0000000000000101440000000f42400101580204000000000000
  $ "$DMS" compile < ../schema
  dms: exists already
  dms: F00001.DMS is a description; take another folder
  [11]

A program that is killed holds the folder no longer.

  $ rm F00001.DMS
  $ "$DMS" compile < ../killed &
  $ exec 3> ../killed
  $ blanks >&3
  $ "$DMS" compile < ../schema
  dms: the folder is in use
  dms: wait until the other command in this folder has ended
  [5]
  $ kill -9 $!
  $ wait $! 2> /dev/null
  [137]
  $ exec 3>&-
  $ "$DMS" compile < ../schema
  COMPILED 2 STRUCTURES

Any lock on the folder counts.

  $ rm F00001.DMS
  $ flock . "$DMS" compile < ../schema
  dms: the folder is in use
  dms: wait until the other command in this folder has ended
  [5]
  $ flock --shared . "$DMS" compile < ../schema
  dms: the folder is in use
  dms: wait until the other command in this folder has ended
  [5]
  $ ls
