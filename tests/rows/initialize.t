An empty database is made of the description in the current folder, once.

  $ mkdir db && cd db
  $ "$DMS" initialize
  dms: no description
  dms: run dms compile in this folder first
  [4]
  $ ls
  $ "$DMS" compile <<'END'
  > RDS RESTART DATA SET (PID ALPHA(10););
  > D DATA SET (X NUMBER(4););
  > END
  COMPILED 2 STRUCTURES
  $ "$DMS" initialize
  INITIALIZED AT POINT 0
  $ ls
  F00001.DMS
  F10001.DMS
  $ od -An -v -tx1 -N6 F00001.DMS | tr -d ' \n'; echo
  01010000003e
  $ od -An -v -tx1 -N24 F10001.DMS | tr -d ' \n'; echo
  444d53410000000102000000000000000000000000000000
  $ od -An -v -tx1 -j511 -N3 F10001.DMS | tr -d ' \n'; echo
  000100
  $ od -An -v -tx1 -j4096 -N106 F10001.DMS | tr -d ' \n'; echo
  00680100010001003e444d535300010064000a01000200270f000202035244530000000f42400103504944010a0000000000000101440000000f424001015802040000000000000400000000000000000000000000000001000200007531000000000000753200000000
  $ stat -c %s F10001.DMS
  8192

A second one is refused, and changes nothing.

  $ cat F*.DMS | cksum > before
  $ "$DMS" initialize
  dms: exists already
  dms: the folder has a database; take another folder
  [11]
  $ "$DMS" initialize 5
  dms: exists already
  dms: the folder has a database; take another folder
  [11]
  $ cat F*.DMS | cksum | cmp - before

A tag stands in the header. Files of an old database are cut to nothing.

  $ mkdir ../tagged && cd ../tagged
  $ printf 'RDS RESTART DATA SET (PID ALPHA(10););' | "$DMS" compile
  COMPILED 1 STRUCTURES
  $ for f in 10001 10007 20000 20001 30001 30200; do echo old > F$f.DMS; done
  $ "$DMS" initialize 18446744073709551615
  INITIALIZED AT POINT 0
  $ od -An -v -tx1 -j8 -N12 F10001.DMS | tr -d ' \n'; echo
  0200ffffffffffffffff0000
  $ stat -c '%n %s' F*.DMS
  F00001.DMS 48
  F10001.DMS 8192
  F10007.DMS 0
  F20000.DMS 0
  F20001.DMS 0
  F30001.DMS 0
  F30200.DMS 0

A tag is a number in plain digits, below 2^64.

  $ mkdir ../words && cd ../words
  $ for tag in 18446744073709551616 +1 -1 x 1x ''; do "$DMS" initialize "$tag" 2>&1; echo $?; done | sort | uniq -c
        6 1
        6 dms: bad words
        6 dms: see dms --help
        6 dms: usage: dms initialize [TAG]
  $ "$DMS" initialize 1 2
  dms: bad words
  dms: see dms --help
  dms: usage: dms initialize [TAG]
  [1]
  $ "$DMS" initialize 0007
  dms: no description
  dms: run dms compile in this folder first
  [4]

Another program in the folder, an output that is one of its files, and one that is full.

  $ mkdir ../edges && cd ../edges
  $ printf 'RDS RESTART DATA SET (PID ALPHA(10););' | "$DMS" compile
  COMPILED 1 STRUCTURES
  $ flock . "$DMS" initialize
  dms: the folder is in use
  dms: wait until the other command in this folder has ended
  [5]
  $ "$DMS" initialize >> F00001.DMS
  dms: output fault
  dms: standard output is a file of a database; print to another place
  [10]
  $ stat -c '%n %s' F*.DMS
  F00001.DMS 48
  $ "$DMS" initialize > /dev/full
  dms: output fault
  dms: standard output: No space left on device
  [10]
  $ "$DMS" initialize
  dms: exists already
  dms: the folder has a database; take another folder
  [11]
  $ "$DMS" initialize 7
  dms: exists already
  dms: the folder has a database; take another folder
  [11]

The tag 7 as the header has it.

  $ mkdir ../seven && cd ../seven
  $ printf 'RDS RESTART DATA SET (PID ALPHA(10););' | "$DMS" compile
  COMPILED 1 STRUCTURES
  $ "$DMS" initialize 7 < /dev/null
  INITIALIZED AT POINT 0
  $ od -An -v -tx1 -j10 -N8 F10001.DMS | tr -d ' \n'; echo
  0000000000000007
