Files, gates, lines and texts that are damaged or false, each with its answer. The database: an audit of eight blocks a file, and one run of twenty transactions, each of which stores one record and ends with a syncpoint.

  $ mkdir db && cd db
  $ "$DMS" compile <<'END'
  > AUDIT TRAIL (BLOCKS = 8, FILES = 100);
  > RDS RESTART DATA SET (PID ALPHA(10););
  > D DATA SET (X NUMBER(4););
  > END
  COMPILED 2 STRUCTURES
  $ "$DMS" initialize
  INITIALIZED AT POINT 0
  $ { echo 'A: OPEN UPDATE'; for n in $(seq 20); do printf 'A: BEGIN-TRANSACTION NO-AUDIT RDS\nA: CREATE D\nA: PUT D X = %d\nA: STORE D\nA: END-TRANSACTION NO-AUDIT RDS SYNC\n' $n; done; } | "$DMS" run | tail -n 1
  SYNCPOINT 20
  $ "$DMS" print audit | awk '{ print $1, $2 }' | uniq | awk '{ last[$1] = $2 } END { for (file in last) print file, last[file] }' | sort
  1 8
  2 8
  3 8
  4 2
  $ cd ..

A row is a change of the folder, a command and its input. It shows the first line that the command prints, its status, and whether the sums of the files are as they were behind the change. Block k of an audit file stands at byte 4096 k, and the gates of its blocks stand in its header from byte 512 on.

  $ put() { printf "\\$(printf %03o "0x$3")" | dd of=$1 bs=1 seek=$2 conv=notrunc status=none; }
  $ row() { rm -rf t; cp -r db t; cd t; eval "$1"; cksum F*.DMS > ../before; printf "$3" | "$DMS" $2 > ../printed 2>&1; status=$?; head -n 1 ../printed; cksum F*.DMS | cmp -s - ../before && files=same || files=other; echo "status $status, files $files"; cd ..; }
  $ point() { (cd t; "$DMS" print audit | sed -n '$s/.* CONTROL \([0-9]*\) NEXT .*/\1/p'); }

Files and gates of the audit.

  $ row 'rm F10004.DMS' run
  dms: audit file 4 missing
  status 4, files same
  $ row 'put F10002.DMS 515 07' run
  dms: audit file 2 unsealed
  status 4, files same
  $ row 'put F10003.DMS 519 00; tr "\\0" "\\1" < /dev/zero | head -c 4096 > F10004.DMS' run
  status 0, files other
  $ point
  19
  $ row 'put F10003.DMS 0 00' run
  dms: file 10003 block 0 damaged
  status 9, files same
  $ row 'put F10003.DMS 16386 09' 'print audit'
  dms: file 10003 block 4 damaged
  status 9, files same
  $ row 'rm F10001.DMS' run
  status 0, files other
  $ point
  20
  $ row 'rm F10002.DMS' run
  dms: audit file 2 missing
  status 4, files same
  $ row 'put F00001.DMS 1 07' run
  dms: no database
  status 3, files same

Points and dumps of statements.

  $ row 'rm F10001.DMS' utility 'ROLLBACK TO 10'
  dms: audit file 1 missing
  status 4, files same
  $ row 'rm F10001.DMS' utility 'ROLLBACK TO 11'
  ROLLED BACK TO POINT 11
  status 0, files other
  $ row : utility 'ROLLBACK TO 21'
  dms: no such point 21
  status 4, files same
  $ row 'echo DUMP TO 1 | "$DMS" utility > ../said; truncate -s -1 F20001.DMS' utility 'REBUILD FROM 1'
  dms: file 20001 block 0 damaged
  status 9, files same
  $ row 'echo DUMP TO 1 | "$DMS" utility > ../said; put F20001.DMS 0 00' utility 'REBUILD FROM 1'
  dms: dump 1 unsealed
  status 4, files same

Statements.

  $ row : utility 'REBUILD FROM 0'
  dms: bad statement at 14
  status 12, files same
  $ row : utility 'ROLLBACK TO 18446744073709551616'
  dms: bad statement at 13
  status 12, files same
  $ row : utility 'DUMP TO 1 X'
  dms: bad statement at 11
  status 12, files same
  $ statement='RECONSTRUCT D ROW 0 FROM 1'
  $ for bytes in $(seq 0 $((${#statement} - 1))); do row : utility "$(printf "$statement" | head -c $bytes)"; done | sed 's/ at [0-9]*$//' | sort | uniq -c
       26 dms: bad statement
       26 status 12, files same

Lines of a script.

  $ row : run 'A OPEN UPDATE\n'
  1 BADLINE 3
  status 0, files other
  $ row : run 'A: OPEN\n'
  1 BADLINE 8
  status 0, files other
  $ row : run 'A: PUT D X = TRUE\n'
  1 BADLINE 14
  status 0, files other

Texts of a schema.

  $ row : try 'D DATA SET (X NUMBER(4) REQUIRED REQUIRED;);'
  dms: schema: unexpected at 34
  status 2, files same
  $ row : try 'D DATA SET (X NUMBER(4);)'
  dms: schema: unexpected at 26
  status 2, files same
  $ row : try '$'
  dms: schema: bad character at 1
  status 2, files same

A description file that is cut at each of its bytes is none.

  $ length=$(stat -c %s db/F00001.DMS)
  $ for bytes in $(seq 0 $((length - 1))); do row "truncate -s $bytes F00001.DMS" run; done | sort | uniq -c
       68 dms: no database
       68 status 3, files same

A line that is cut at each of its bytes is answered, and the run goes on.

  $ line='A: PUT D X = 1234;'
  $ for bytes in $(seq ${#line}); do printf '%s\n' "$line" | head -c $bytes; echo; done > cut
  $ row : run "$(cat cut)"'\nA: OPEN INQUIRY\n'
  1 BADLINE 2
  status 0, files other
  $ cut -d ' ' -f 2-3 printed | sed 's/ [0-9]*$//' | sort | uniq -c
        1 A DONE
        5 A EXCEPTION
       13 BADLINE

The description file of another database, which names fewer structures: the database is opened under the description in its audit, so the files of all its structures are written.

  $ mkdir ../two ../three && cd ../three
  $ printf 'RDS RESTART DATA SET (PID ALPHA(10););\nD DATA SET (X NUMBER(4););\nE DATA SET (Y NUMBER(4););\n' | "$DMS" compile
  COMPILED 3 STRUCTURES
  $ "$DMS" initialize
  INITIALIZED AT POINT 0
  $ printf 'A: OPEN UPDATE\nA: BEGIN-TRANSACTION NO-AUDIT RDS\nA: CREATE E\nA: PUT E Y = 5\nA: STORE E\nA: END-TRANSACTION NO-AUDIT RDS\n' | "$DMS" run | tail -n 1
  6 A DONE
  $ cd ../two
  $ printf 'RDS RESTART DATA SET (PID ALPHA(10););\nD DATA SET (X NUMBER(4););\n' | "$DMS" compile
  COMPILED 2 STRUCTURES
  $ "$DMS" initialize
  INITIALIZED AT POINT 0
  $ cd ../three && cp F00001.DMS right && cp ../two/F00001.DMS .
  $ printf 'A: OPEN UPDATE\nA: BEGIN-TRANSACTION NO-AUDIT RDS\nA: CREATE E\nA: PUT E Y = 6\nA: STORE E\nA: END-TRANSACTION NO-AUDIT RDS\n' | "$DMS" run | tail -n 1
  6 A DONE
  $ printf 'A: OPEN INQUIRY\nA: FIND LAST E\nA: GET E Y\n' | "$DMS" run
  1 A DONE
  2 A DONE
  3 A DONE Y=6
  $ echo 'DUMP TO 1' | "$DMS" utility
  DUMPED 1 AT POINT 2
  $ echo 'ROLLBACK TO 1' | "$DMS" utility
  ROLLED BACK TO POINT 1
  $ printf 'A: OPEN INQUIRY\nA: FIND LAST E\nA: GET E Y\n' | "$DMS" run
  1 A DONE
  2 A DONE
  3 A DONE Y=5
  $ cp right F00001.DMS
  $ printf 'A: OPEN INQUIRY\nA: FIND LAST E\nA: GET E Y\n' | "$DMS" run
  1 A DONE
  2 A DONE
  3 A DONE Y=5

A Schema of no byte, and one of more than 65,535, are in the audit's grammar, and no description. Where one stands at the point that is opened the trail's first file is damaged, in `run` and in each statement, and nothing changes.

  $ cat > schema.py <<'END'
  > # the audit of a new database anew, with a Schema of so many bytes
  > import sys
  > size = int(sys.argv[1])
  > file = bytearray(open('F10001.DMS', 'rb').read())
  > entries = file[4098:4098 + int.from_bytes(file[4096:4098], 'big')]
  > length = int.from_bytes(entries[5:7], 'big')
  > schema = (entries[7:7 + length] * (size // length + 1))[:size]
  > parts = [schema[i:i + 4000] for i in range(0, size, 4000)] or [b'']
  > blocks = [b'\1' + (i + 1).to_bytes(2, 'big') + len(parts).to_bytes(2, 'big') + len(part).to_bytes(2, 'big') + part for i, part in enumerate(parts)]
  > blocks[-1] += entries[7 + length:]
  > out = file[:512] + b'\1' * len(blocks) + bytes(3584 - len(blocks))
  > for block in blocks:
  >     out += len(block).to_bytes(2, 'big') + block + bytes(4094 - len(block))
  > open('F10001.DMS', 'wb').write(out)
  > END
  $ rm -rf db; mkdir db; cd db
  $ printf 'RDS RESTART DATA SET (PID ALPHA(10););\nD DATA SET (X NUMBER(4););\n' | "$DMS" compile
  COMPILED 2 STRUCTURES
  $ "$DMS" initialize
  INITIALIZED AT POINT 0
  $ echo 'DUMP TO 1' | "$DMS" utility
  DUMPED 1 AT POINT 0
  $ cd ..
  $ for size in 65535 65536 0; do row "python3 ../schema.py $size" run; done
  status 0, files other
  dms: file 10001 block 0 damaged
  status 9, files same
  dms: file 10001 block 0 damaged
  status 9, files same
  $ for statement in 'DUMP TO 2' 'ROLLBACK TO 0' 'REBUILD FROM 1' 'RECONSTRUCT D ROW 0 FROM 1'; do row 'python3 ../schema.py 0' utility "$statement"; done
  dms: file 10001 block 0 damaged
  status 9, files same
  dms: file 10001 block 0 damaged
  status 9, files same
  dms: file 10001 block 0 damaged
  status 9, files same
  dms: file 10001 block 0 damaged
  status 9, files same
