A standard stream that is closed or full. No file that the program opens takes the place of a closed one.

  $ printf 'RDS RESTART DATA SET (PID ALPHA(10););\nD DATA SET (X NUMBER(4););\n' > schema
  $ { cat schema; printf 'SCRIPT\nA: CLOSE\n'; } > script
  $ echo 'D DATA SET (X NUMBER(19););' > refused
  $ bytes() { od -An -v -tx1 "$1" | tr -d ' \n'; echo; }

Standard output is closed: the description is whole, and nothing was printed into it.

  $ "$DMS" compile < schema >&-
  dms: output fault
  dms: standard output: Bad file descriptor
  [10]
  $ bytes F00001.DMS
  01000000003e444d535300010064000a01000200270f000202035244530000000f42400103504944010a0000000000000101440000000f42400101580204000000000000
  $ "$DMS" compile < schema
  dms: exists already
  dms: F00001.DMS is a description; take another folder
  [11]
  $ "$DMS" try < script >&-
  dms: output fault
  [10]
  $ "$DMS" --help >&-
  dms: output fault
  dms: standard output: Bad file descriptor
  [10]

Standard input is closed: nothing is made.

  $ rm F00001.DMS
  $ "$DMS" compile <&-
  dms: input fault
  dms: standard input: Bad file descriptor
  [6]
  $ ls
  refused
  schema
  script
  $ "$DMS" try <&-
  dms: input fault
  [6]

Standard error is closed: the line of a fault goes nowhere.

  $ "$DMS" compile < schema 2>&-
  COMPILED 2 STRUCTURES
  $ "$DMS" compile < schema 2>&-
  [11]
  $ bytes F00001.DMS
  01000000003e444d535300010064000a01000200270f000202035244530000000f42400103504944010a0000000000000101440000000f42400101580204000000000000
  $ "$DMS" try < script 2>&-
  1 A EXCEPTION OPENERROR A
  $ "$DMS" try < refused 2>&-
  [2]

All of them are closed, or two.

  $ rm F00001.DMS
  $ "$DMS" compile <&- >&- 2>&-
  [6]
  $ "$DMS" try <&- >&- 2>&-
  [6]
  $ ls
  refused
  schema
  script
  $ "$DMS" compile < schema >&- 2>&-
  [10]
  $ bytes F00001.DMS
  01000000003e444d535300010064000a01000200270f000202035244530000000f42400103504944010a0000000000000101440000000f42400101580204000000000000
  $ "$DMS" try < script >&- 2>&-
  [10]

Standard output is full.

  $ "$DMS" --help > /dev/full
  dms: output fault
  dms: standard output: No space left on device
  [10]
  $ "$DMS" --version > /dev/full
  dms: output fault
  dms: standard output: No space left on device
  [10]
  $ "$DMS" try < script > /dev/full
  dms: output fault
  [10]
  $ rm F00001.DMS
  $ "$DMS" compile < schema > /dev/full
  dms: output fault
  dms: standard output: No space left on device
  [10]
  $ bytes F00001.DMS
  01000000003e444d535300010064000a01000200270f000202035244530000000f42400103504944010a0000000000000101440000000f42400101580204000000000000

Standard error is full: each status is the same.

  $ "$DMS" tri 2> /dev/full
  [1]
  $ "$DMS" "$(printf '\377')" 2> /dev/full
  [1]
  $ "$DMS" compile < refused 2> /dev/full
  [2]
  $ "$DMS" try < / 2> /dev/full
  [6]
  $ "$DMS" try < script > /dev/full 2> /dev/full
  [10]
  $ "$DMS" --version > /dev/full 2> /dev/full
  [10]
  $ "$DMS" compile < schema 2> /dev/full
  [11]
  $ mkdir other && cd other && mkdir F00001.DMS
  $ "$DMS" compile < ../schema
  dms: disk fault
  dms: F00001.DMS: not a regular file
  [5]
  $ "$DMS" compile < ../schema 2> /dev/full
  [5]
  $ flock . "$DMS" compile < ../schema 2> /dev/full
  [5]
  $ { cat ../schema; echo SCRIPT; yes '' | head -n 1000001; } | "$DMS" try 2> /dev/full
  [8]
