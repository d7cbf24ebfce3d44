`ship` prints the sealed audit of a database as a stream of bytes, and changes nothing.

  $ mkdir db && cd db
  $ "$DMS" ship
  dms: no database
  dms: go to the folder of a database, or make one by dms compile and dms initialize
  [3]
  $ printf 'RDS RESTART DATA SET (PID ALPHA(10););\nD DATA SET (X NUMBER(4););\n' | "$DMS" compile
  COMPILED 2 STRUCTURES
  $ "$DMS" ship
  dms: no database
  dms: go to the folder of a database, or make one by dms compile and dms initialize
  [3]
  $ "$DMS" initialize
  INITIALIZED AT POINT 0
  $ store() { printf 'A: BEGIN-TRANSACTION NO-AUDIT RDS\nA: CREATE D\nA: PUT D X = %s\nA: STORE D\nA: END-TRANSACTION NO-AUDIT RDS\n' "$1"; }
  $ { echo 'A: OPEN UPDATE'; for x in 1 2 3 4 5; do store $x; done; } | "$DMS" run | tail -1
  26 A DONE
  $ cat F*.DMS | cksum > ../before

A head of 80 bytes, five blocks of 4,096 bytes with 7 before each, and a byte 0.

  $ "$DMS" ship > ../stream; wc -c < ../stream
  20596
  $ head -c 18 ../stream | od -An -v -tx1
   44 4d 53 52 00 00 00 00 00 00 00 00 02 00 00 00
   00 3e
  $ head -c 80 ../stream | tail -c 62 | od -An -v -tx1 | tr -d ' \n'; echo
  444d535300010064000a01000200270f000202035244530000000f42400103504944010a0000000000000101440000000f42400101580204000000000000
  $ for n in 0 1 2 3 4; do od -An -v -tx1 -j $((80 + n * 4103)) -N 7 ../stream; done
   01 00 00 00 01 00 01
   01 00 00 00 01 00 02
   01 00 00 00 01 00 03
   01 00 00 00 01 00 04
   01 00 00 00 01 00 05
  $ for n in 0 1 2 3 4; do tail -c +$((88 + n * 4103)) ../stream | head -c 4096; done > ../blocks
  $ tail -c +4097 F10001.DMS | head -c 20480 | cmp - ../blocks
  $ tail -c 1 ../stream | od -An -v -tx1
   00
  $ "$DMS" ship 1 | cmp - ../stream
  $ "$DMS" ship 00001 < /dev/null | cmp - ../stream
  $ cat F*.DMS | cksum | cmp - ../before

From a file on behind the last one there is only the head, and the end.

  $ { head -c 80 ../stream; printf '\0'; } > ../none
  $ "$DMS" ship 2 | cmp - ../none
  $ "$DMS" ship 9999 | cmp - ../none

Other words are bad.

  $ for words in 'ship 0' 'ship 10000' 'ship 18446744073709551617' 'ship x' 'ship -1' 'ship 1 1' 'ship 1x' 'Ship'; do "$DMS" $words; echo $?; done 2>&1 | sort | uniq -c
        8 1
        8 dms: bad words
        8 dms: see dms --help
        7 dms: usage: dms ship [K] > FILE

It needs no right to write, and the folder is read by two at once, but not while one writes.

  $ chmod 444 F*.DMS && chmod 555 .
  $ alone() { if [ "$(id -u)" = 0 ]; then setpriv --reuid=65534 --regid=65534 --clear-groups "$@"; else "$@"; fi; }
  $ there=$(mktemp -d) && chmod 755 "$there" && cp "$DMS" "$there/dms" && cp -r . "$there/db" && chmod 555 "$there/db"
  $ (cd "$there/db" && alone ../dms ship) | cmp - ../stream
  $ chmod 755 . "$there/db" && chmod 644 F*.DMS && rm -r "$there"
  $ flock --shared . "$DMS" ship | cmp - ../stream
  $ flock . "$DMS" ship
  dms: the folder is in use
  dms: wait until the other command in this folder has ended
  [5]

Where printing fails, what was printed are the first bytes.

  $ "$DMS" ship > /dev/full
  dms: output fault
  dms: standard output: No space left on device
  [10]
  $ (ulimit -f 8; trap '' XFSZ; "$DMS" ship > ../part)
  dms: output fault
  dms: standard output: File too large
  [10]
  $ wc -c < ../part
  4096
  $ head -c 4096 ../stream | cmp - ../part

A trail of more than one audit file, from each file on. What comes before is missing where it was removed.

  $ mkdir ../more && cd ../more
  $ printf 'AUDIT TRAIL (BLOCKS = 8, FILES = 100);\nRDS RESTART DATA SET (PID ALPHA(10););\nD DATA SET (X NUMBER(4););\n' | "$DMS" compile
  COMPILED 2 STRUCTURES
  $ "$DMS" initialize 7
  INITIALIZED AT POINT 0
  $ for n in 1 2 3 4 5; do "$DMS" run < /dev/null; done
  $ "$DMS" print audit | cut -d' ' -f1,2 | uniq | tr '\n' ','; echo
  1 1,1 2,1 3,1 4,1 5,1 6,1 7,1 8,2 1,2 2,2 3,2 4,2 5,2 6,2 7,2 8,
  $ "$DMS" run < /dev/null
  $ "$DMS" print audit | cut -d' ' -f1,2 | uniq | tail -1
  3 3
  $ for k in 1 2 3 4; do "$DMS" ship $k > ../from$k; wc -c < ../from$k; done
  78038
  45214
  12390
  81
  $ head -c 18 ../from2 | od -An -v -tx1
   44 4d 53 52 00 00 00 00 00 00 00 07 00 08 00 00
   00 3e
  $ od -An -v -tx1 -j 80 -N 7 ../from2
   01 00 00 00 02 00 01
  $ od -An -v -tx1 -j $((80 + 8 * 4103)) -N 7 ../from2
   01 00 00 00 03 00 01
  $ tail -c +81 ../from2 > ../rest && tail -c +$((81 + 8 * 4103)) ../from1 | cmp - ../rest
  $ rm F10001.DMS
  $ "$DMS" ship
  dms: audit file 1 missing
  dms: put F10001.DMS back, as it was
  [4]
  $ "$DMS" ship 2 | cmp - ../from2
  $ printf '\377' | dd of=F10002.DMS bs=1 seek=8192 conv=notrunc 2> ../none
  $ "$DMS" ship 2
  dms: file 10002 block 2 damaged
  dms: put back a copy of the whole database
  [9]
  $ "$DMS" ship 3
  dms: file 10002 block 2 damaged
  dms: put back a copy of the whole database
  [9]
