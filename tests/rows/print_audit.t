`print audit` prints a line for each entry that is sealed, and changes nothing.

  $ mkdir db && cd db
  $ "$DMS" print audit
  dms: no database
  dms: go to the folder of a database, or make one by dms compile and dms initialize
  [3]
  $ "$DMS" compile <<'END'
  > RDS RESTART DATA SET (PID ALPHA(10););
  > D DATA SET (X NUMBER(4););
  > END
  COMPILED 2 STRUCTURES
  $ "$DMS" print audit
  dms: no database
  dms: go to the folder of a database, or make one by dms compile and dms initialize
  [3]
  $ "$DMS" initialize
  INITIALIZED AT POINT 0
  $ cat F*.DMS | cksum > before
  $ "$DMS" print audit
  1 1 SCHEMA 1 OF 1 LENGTH 62
  1 1 CONTROL 0 NEXT 1
  $ "$DMS" print audit < /dev/null > out && wc -c < out
  49
  $ cat F*.DMS | cksum | cmp - before
  $ ls
  F00001.DMS
  F10001.DMS
  before
  out

Other words are bad. Another program in the folder, and an output that fails, are told.

  $ for words in print audit 'print audit x' 'audit print' 'print Audit' 'print print'; do "$DMS" $words; echo $?; done 2>&1 | sort | uniq -c
        6 1
        6 dms: bad words
        6 dms: see dms --help
        4 dms: usage: dms print audit
  $ flock . "$DMS" print audit
  dms: the folder is in use
  dms: wait until the other command in this folder has ended
  [5]
  $ "$DMS" print audit > /dev/full
  dms: output fault
  dms: standard output: No space left on device
  [10]
  $ "$DMS" print audit >> F10001.DMS
  dms: output fault
  dms: standard output is a file of a database; print to another place
  [10]
  $ "$DMS" print audit < F10001.DMS | tail -n 1
  1 1 CONTROL 0 NEXT 1
  $ rm before out

A tag isn't printed. A description of more than 4,000 bytes stands in parts, each in a block.

  $ mkdir ../tagged && cd ../tagged
  $ printf 'RDS RESTART DATA SET (PID ALPHA(10););' | "$DMS" compile
  COMPILED 1 STRUCTURES
  $ "$DMS" initialize 7
  INITIALIZED AT POINT 0
  $ "$DMS" print audit
  1 1 SCHEMA 1 OF 1 LENGTH 42
  1 1 CONTROL 0 NEXT 1
  $ mkdir ../parts && cd ../parts
  $ { echo 'RDS RESTART DATA SET (PID ALPHA(10););'; for i in $(seq 100 199); do echo "STRUCTURE-OF-THE-NUMBER-$i DATA SET (ITEM-OF-THE-NUMBER-$i NUMBER(4););"; done; } | "$DMS" compile
  COMPILED 101 STRUCTURES
  $ "$DMS" initialize
  INITIALIZED AT POINT 0
  $ stat -c '%s' F00001.DMS
  6748
  $ "$DMS" print audit
  1 1 SCHEMA 1 OF 2 LENGTH 4000
  1 2 SCHEMA 2 OF 2 LENGTH 2742
  1 2 CONTROL 0 NEXT 1

Bytes are put into a file by their digits.

  $ cd ..
  $ bytes() { for b in $(echo "$1" | sed 's/../& /g'); do printf "\\$(printf %03o "0x$b")"; done; }
  $ patch() { bytes "$3" | dd of="$1" bs=1 seek="$2" conv=notrunc status=none; }

Entries of each kind, void ones too: images of a new block and of a changed one, a quiet point, and a begin of each kind alone in its block.

  $ cp -r db kinds && cd kinds
  $ truncate -s 32768 F10001.DMS
  $ patch F10001.DMS 513 010101010101
  $ patch F10001.DMS 8192 0c1d02000075310000000000
  $ patch F10001.DMS 9228 02000075310000000001
  $ patch F10001.DMS 11286 030000000000000001
  $ patch F10001.DMS 12288 000e050000000000000000010000
  $ patch F10001.DMS 16384 000e05ffffffffffffffff0200000000
  $ patch F10001.DMS 20480 000e0500000000000000000300000000
  $ patch F10001.DMS 24576 000e05000000000000000a04270f0000
  $ patch F10001.DMS 28672 001e05000000000000000b05000100020000753100000000000075320000ffff
  $ cat F*.DMS | cksum > before
  $ "$DMS" print audit
  1 1 SCHEMA 1 OF 1 LENGTH 62
  1 1 CONTROL 0 NEXT 1
  1 2 IMAGE 30001 0 NEW
  1 2 IMAGE 30001 0 CHANGED
  1 2 QUIET 1
  1 3 BEGIN 0 HALTLOAD
  1 4 BEGIN 18446744073709551615 BACKOUT
  1 5 BEGIN 0 ROLLBACK
  1 6 BEGIN 10 REBUILD 9999
  1 7 BEGIN 11 RECONSTRUCT 1 ROWS 2
  $ cat F*.DMS | cksum | cmp - before
  $ rm before && cd ..

Each row of a table is a place of audit file 1 and the bytes that are put there. The answers are counted.

  $ each() { while read at put; do rm -rf t; cp -r "$1" t; patch t/F10001.DMS "$at" "$put"; (cd t; "$DMS" print audit 2>&1; echo "$?") | tr '\n' ' '; echo; done | sort | uniq -c; }

The header: its mark, its number, its number of blocks, zeros before and behind the gates, and a gate that is open behind one that isn't.

  $ each db <<'END'
  > 0 45
  > 3 42
  > 4 00000000
  > 4 00000002
  > 8 0000
  > 8 0007
  > 8 0201
  > 18 01
  > 511 01
  > 1024 01
  > 4095 01
  > 514 01
  > 1023 01
  > END
       13 dms: file 10001 block 0 damaged dms: put back a copy of the whole database 9 

Another number of blocks, where the bytes fit it; a tag; and gates that are shut may be any byte but 1.

  $ each db <<'END'
  > 8 0008
  > 8 0180
  > 10 ffffffffffffffff
  > 513 02
  > 514 ff
  > 1023 7f
  > END
        6 1 1 SCHEMA 1 OF 1 LENGTH 62 1 1 CONTROL 0 NEXT 1 0 

Only the byte 1 is an open gate. Without a block the trail has no description. A sealed block that the file hasn't is damaged.

  $ each db <<'END'
  > 512 00
  > 512 02
  > 512 ff
  > END
        3 dms: file 10001 block 0 damaged dms: put back a copy of the whole database 9 
  $ each db <<'END'
  > 513 01
  > END
        1 dms: file 10001 block 2 damaged dms: put back a copy of the whole database 9 

A block: the number of its used bytes, and zeros behind them.

  $ each db <<'END'
  > 4096 0000
  > 4096 0067
  > 4096 0069
  > 4096 0fff
  > 4096 ffff
  > 4202 01
  > 8191 01
  > END
        7 dms: file 10001 block 1 damaged dms: put back a copy of the whole database 9 

A Schema: its kind, its part, its number of parts, and its length. What the description's bytes say isn't read.

  $ each db <<'END'
  > 4098 00
  > 4098 06
  > 4099 0000
  > 4099 0002
  > 4101 0000
  > 4101 0002
  > 4103 003d
  > 4103 003f
  > 4103 0fa1
  > END
        9 dms: file 10001 block 1 damaged dms: put back a copy of the whole database 9 
  $ each db <<'END'
  > 4105 00
  > END
        1 1 1 SCHEMA 1 OF 1 LENGTH 62 1 1 CONTROL 0 NEXT 1 0 

A Control: its number, the next one, and the counts of structure files, rising.

  $ each db <<'END'
  > 4168 ffffffffffffffffffffffffffffffff
  > END
        1 1 1 SCHEMA 1 OF 1 LENGTH 62 1 1 CONTROL 18446744073709551615 NEXT 18446744073709551615 0 
  $ each db <<'END'
  > 4190 00200000
  > 4194 000075f8
  > END
        2 1 1 SCHEMA 1 OF 1 LENGTH 62 1 1 CONTROL 0 NEXT 1 0 
  $ each db <<'END'
  > 4184 0001
  > 4184 0003
  > 4186 00007530
  > 4186 00007532
  > 4190 00200001
  > 4194 00007531
  > 4194 000075f9
  > 4198 00200001
  > END
        8 dms: file 10001 block 1 damaged dms: put back a copy of the whole database 9 

Without a Control behind it the Schema counts for nothing: here a quiet point stands in its place.

  $ cp -r db quiet
  $ patch quiet/F10001.DMS 4096 004e
  $ patch quiet/F10001.DMS 4167 03000000000000000000000000000000000000000000000000000000000000000000000000
  $ each quiet <<'END'
  > 4095 00
  > END
        1 dms: file 10001 block 0 damaged dms: put back a copy of the whole database 9 

Images and quiet points: the file, the block, and whether it is new.

  $ each kinds <<'END'
  > 8195 00007530
  > 8195 000075f9
  > 8199 00200000
  > 8203 01
  > 8203 02
  > 9237 00
  > 9237 02
  > 11286 04
  > END
        8 dms: file 10001 block 2 damaged dms: put back a copy of the whole database 9 
  $ each kinds <<'END' | grep -o 'IMAGE.*NEW'
  > 8195 000075f8001fffff
  > END
  IMAGE 30200 2097151 NEW

A begin: its kind, its dump, its rows, and that it stands alone in its block.

  $ each kinds <<'END'
  > 12299 00
  > 12299 04
  > 12299 05
  > 12299 06
  > 12300 0001
  > 12302 0001
  > END
        6 dms: file 10001 block 3 damaged dms: put back a copy of the whole database 9 
  $ each kinds <<'END'
  > 24587 03
  > 24588 0000
  > 24588 2710
  > 24590 0001
  > END
        4 dms: file 10001 block 6 damaged dms: put back a copy of the whole database 9 
  $ each kinds <<'END'
  > 28684 0000
  > 28684 2710
  > 28686 0001
  > 28686 0003
  > 28688 00007530
  > 28688 00007533
  > 28696 0000753100000000
  > 28696 000075f9
  > END
        8 dms: file 10001 block 7 damaged dms: put back a copy of the whole database 9 
  $ each kinds <<'END'
  > 12288 001705000000000000000001000000000300000000000000
  > 12288 0017030000000000000001050000000000000000010000
  > END
        2 dms: file 10001 block 3 damaged dms: put back a copy of the whole database 9 

A file that is too short: of its header, and of its block.

  $ for size in 1 9 10 512 513 4095 4096 4097 8191; do rm -rf t; cp -r db t; truncate -s $size t/F10001.DMS; (cd t; "$DMS" print audit 2>&1; echo $?) | tr '\n' ' '; echo; done | sort | uniq -c
        6 dms: file 10001 block 0 damaged dms: put back a copy of the whole database 9 
        3 dms: file 10001 block 1 damaged dms: put back a copy of the whole database 9 

A longer one is as it was.

  $ rm -rf t; cp -r db t; truncate -s 9000 t/F10001.DMS; (cd t; "$DMS" print audit) | tail -n 1
  1 1 CONTROL 0 NEXT 1

No database: the description isn't sealed, its length is another one, the gate of the database is shut, or no audit file is there.

  $ for put in '0 00' '0 02' '1 00' '1 02' '2 0000003d' '6 45' '10 0002'; do rm -rf t; cp -r db t; patch t/F00001.DMS $put; (cd t; "$DMS" print audit 2>&1; echo $?) | tr '\n' ' '; echo; done | sort | uniq -c
        7 dms: no database dms: F00001.DMS isn't the description of the database whose files are here: put it back; initialize would empty them 3 
  $ for file in F00001.DMS F10001.DMS; do rm -rf t; cp -r db t; rm t/$file; (cd t; "$DMS" print audit); done
  dms: no database
  dms: F00001.DMS isn't the description of the database whose files are here: put it back; initialize would empty them
  dms: no database
  dms: go to the folder of a database, or make one by dms compile and dms initialize
  [3]
  $ rm -rf t; cp -r db t; : > t/F10001.DMS; (cd t; "$DMS" print audit)
  dms: no database
  dms: go to the folder of a database, or make one by dms compile and dms initialize
  [3]

A trail of several files of eight blocks each. File 2 has nothing behind it but its own next file's header.

  $ mkdir long && cd long
  $ "$DMS" compile <<'END'
  > AUDIT TRAIL (BLOCKS = 8, FILES = 100);
  > RDS RESTART DATA SET (PID ALPHA(10););
  > D DATA SET (X NUMBER(4););
  > END
  COMPILED 2 STRUCTURES
  $ "$DMS" initialize 7
  INITIALIZED AT POINT 0
  $ head_of() { truncate -s "$3" F$((10000 + $1)).DMS; patch F$((10000 + $1)).DMS 0 "444d5341$(printf %08x "$1")0008$2"; }
  $ quiet() { patch F$((10000 + $1)).DMS $((4096 * $2)) "000903$(printf %016x "$3")"; }
  $ truncate -s 36864 F10001.DMS
  $ for i in 2 3 4 5 6 7 8; do quiet 1 $i $i; done
  $ patch F10001.DMS 513 01010101010101
  $ "$DMS" print audit
  dms: audit file 2 missing
  dms: put F10002.DMS back, as it was
  [4]
  $ head_of 2 0000000000000007 36864
  $ for i in 1 2 3 4 5 6 7 8; do quiet 2 $i $((i + 8)); done
  $ patch F10002.DMS 512 0101010101010101
  $ head_of 3 0000000000000007 4096
  $ "$DMS" print audit | sed -n '2,3p;9,10p;$p'
  1 1 CONTROL 0 NEXT 1
  1 2 QUIET 2
  1 8 QUIET 8
  2 1 QUIET 9
  2 8 QUIET 16

The file that the trail reaches has another tag, or another number of blocks.

  $ patch F10003.DMS 10 0000000000000008
  $ "$DMS" print audit
  dms: audit file 3 of another database
  dms: put back all files of one copy of the database
  [4]
  $ patch F10003.DMS 8 0009
  $ "$DMS" print audit
  dms: file 10003 block 0 damaged
  dms: put back a copy of the whole database
  [9]
  $ patch F10003.DMS 8 00080000000000000007

Where the trail doesn't reach the last file its bytes don't count. A gate that is shut two files before the last is refused first.

  $ patch F10002.DMS 519 00
  $ patch F10003.DMS 0 00
  $ "$DMS" print audit | tail -n 1
  2 7 QUIET 15
  $ patch F10001.DMS 519 00
  $ "$DMS" print audit
  dms: audit file 1 unsealed
  dms: put back all files of one copy of the database
  [4]
  $ patch F10001.DMS 0 00
  $ "$DMS" print audit
  dms: audit file 1 unsealed
  dms: put back all files of one copy of the database
  [4]
  $ patch F10001.DMS 0 44
  $ patch F10001.DMS 519 01
  $ patch F10002.DMS 519 01
  $ patch F10003.DMS 0 44

A file that is missing in the middle, and the first one. The trail begins behind the gap; it needs a Schema with its Control.

  $ mv F10002.DMS kept
  $ "$DMS" print audit
  dms: audit file 2 missing
  dms: put F10002.DMS back, as it was
  [4]
  $ mv kept F10002.DMS; mv F10001.DMS kept
  $ "$DMS" print audit
  dms: audit file 1 missing
  dms: put F10001.DMS back, as it was
  [4]
  $ dd if=kept of=F10003.DMS bs=4096 skip=1 seek=1 count=1 conv=notrunc status=none
  $ patch F10003.DMS 512 01
  $ "$DMS" print audit | tail -n 3
  2 8 QUIET 16
  3 1 SCHEMA 1 OF 1 LENGTH 62
  3 1 CONTROL 0 NEXT 1
  $ rm F10002.DMS
  $ "$DMS" print audit
  3 1 SCHEMA 1 OF 1 LENGTH 62
  3 1 CONTROL 0 NEXT 1
