A schema is compiled into the description file of the current folder, once.

  $ mkdir db && cd db
  $ "$DMS" compile <<'END'
  > RDS RESTART DATA SET (PID ALPHA(10););
  > D DATA SET (X NUMBER(4););
  > END
  COMPILED 2 STRUCTURES
  $ ls
  F00001.DMS
  $ od -An -v -tx1 F00001.DMS | tr -d ' \n'; echo
  01000000003e444d535300010064000a01000200270f000202035244530000000f42400103504944010a0000000000000101440000000f42400101580204000000000000

  $ "$DMS" compile <<'END'
  > RDS RESTART DATA SET (PID ALPHA(10););
  > E DATA SET (X NUMBER(4););
  > END
  dms: exists already
  dms: F00001.DMS is a description; take another folder
  [11]
  $ od -An -v -tx1 F00001.DMS | tr -d ' \n'; echo
  01000000003e444d535300010064000a01000200270f000202035244530000000f42400103504944010a0000000000000101440000000f42400101580204000000000000

A schema that is refused is refused first, and nothing is written.

  $ mkdir ../other && cd ../other
  $ "$DMS" compile < /dev/null
  dms: schema: no restart data set
  dms: a schema has one, as RDS RESTART DATA SET (STEP NUMBER(6););
  [2]
  $ "$DMS" compile <<'END'
  > D DATA SET (X NUMBER(19););
  > END
  dms: schema: number out of range at 22
  dms: line 1, column 22
      D DATA SET (X NUMBER(19););
                           ^
  [2]
  $ ls

A line SCRIPT is no end of the text here.

  $ "$DMS" compile <<'END'
  > RDS RESTART DATA SET (PID ALPHA(10););
  > SCRIPT
  > END
  dms: schema: unexpected at 40
  dms: line 2, column 1
      SCRIPT
      ^
  [2]

A file whose gate is closed is no description; it is written over.

  $ printf '\000\000\000\000\000\076DMSS' > F00001.DMS
  $ "$DMS" compile <<'END'
  > RDS RESTART DATA SET (PID ALPHA(10););
  > D DATA SET (X NUMBER(4););
  > END
  COMPILED 2 STRUCTURES
  $ od -An -v -tx1 F00001.DMS | tr -d ' \n'; echo
  01000000003e444d535300010064000a01000200270f000202035244530000000f42400103504944010a0000000000000101440000000f42400101580204000000000000

A file is a description where its bytes spell one that a schema can have. Here one byte is changed: its place counts behind the six bytes before the description. What is no description is written over.

  $ described() { rm -f F00001.DMS; cat > schema; "$DMS" compile < schema; cp F00001.DMS good; }
  $ with() { cp good F00001.DMS; printf "\\$(printf %03o $2)" | dd of=F00001.DMS bs=1 seek=$((6 + $1)) conv=notrunc status=none; "$DMS" compile < schema 2>&1; }
  $ described <<'END'
  > RDS RESTART DATA SET (PID ALPHA(10););
  > D DATA SET (X NUMBER(4););
  > END
  COMPILED 2 STRUCTURES
  $ for change in '0 69' '5 2' '6 255' '10 0' '12 3' '15 16' '17 1' '17 3' '18 1' '18 3' '19 2' '20 114' '24 1' '25 1' '29 0' '34 6' '35 0' '36 1' '38 2' '39 1' '40 1' '41 1' '42 2' '44 45' '46 1' '54 5' '55 19' '56 5' '57 2' '58 2' '61 5'; do with $change; done | sort -u
  COMPILED 2 STRUCTURES
  $ for change in '7 101' '22 84' '35 200' '55 18' '57 1' '58 1'; do with $change; done | sort -u
  dms: F00001.DMS is a description; take another folder
  dms: exists already
  $ head -c 67 good > F00001.DMS; "$DMS" compile < schema
  COMPILED 2 STRUCTURES
  $ { cat good; printf A; } > F00001.DMS; "$DMS" compile < schema
  COMPILED 2 STRUCTURES

A structure stands in none, in the structure before it, or in one in which that one stands. Byte 86 is the owner of F: D has ended before it, and E can be open.

  $ described <<'END'
  > RDS RESTART DATA SET (PID ALPHA(10););
  > D DATA SET (X NUMBER(4););
  > E DATA SET (X NUMBER(4););
  > F DATA SET (X NUMBER(4););
  > END
  COMPILED 4 STRUCTURES
  $ with 86 2
  COMPILED 4 STRUCTURES
  $ with 86 3
  dms: exists already
  dms: F00001.DMS is a description; take another folder
  [11]
  $ with 66 2
  dms: exists already
  dms: F00001.DMS is a description; take another folder
  [11]

A group holds no link. Bytes 71 and 72 are the group's first item and its count, and byte 70 is its name.

  $ described <<'END'
  > RDS RESTART DATA SET (PID ALPHA(10););
  > D DATA SET (G GROUP (X BOOLEAN;); L LINK TO RDS;);
  > END
  COMPILED 2 STRUCTURES
  $ with 72 2
  COMPILED 2 STRUCTURES
  $ with 71 2
  COMPILED 2 STRUCTURES
  $ with 70 72
  dms: exists already
  dms: F00001.DMS is a description; take another folder
  [11]

Nothing stands behind the word.

  $ "$DMS" compile again < /dev/null
  dms: bad words
  dms: see dms --help
  dms: usage: dms compile < FILE
  [1]
