A database of accounts is made and filled by a script that is drawn from a seed. The summary of its answers is printed, and nothing else.

  $ mkdir none one && cd none
  $ "$DMS" load 1 0
  LINES 4
  DONE 4
  EXCEPTIONS 0
  HELD 0
  UNANSWERED 0
  QUIET POINTS 0
  RECORDS 0
  $ ls
  F00001.DMS
  F10001.DMS
  $ cd ../one
  $ "$DMS" load 1 1
  LINES 5
  DONE 5
  EXCEPTIONS 0
  HELD 0
  UNANSWERED 0
  QUIET POINTS 0
  RECORDS 0
  $ printf 'A: OPEN UPDATE\n' | "$DMS" run
  1 A DONE

What is there isn't loaded again, and nothing of it changes.

  $ cat F*.DMS | cksum > ../before
  $ "$DMS" load 1 1
  dms: exists already
  dms: F00001.DMS is a description; take another folder
  [11]
  $ cat F*.DMS | cksum | cmp - ../before
  $ mkdir ../compiled && cd ../compiled
  $ printf 'RDS RESTART DATA SET (PID ALPHA(10););\nD DATA SET (X NUMBER(4););\n' | "$DMS" compile
  COMPILED 2 STRUCTURES
  $ "$DMS" load 1 1
  dms: exists already
  dms: F00001.DMS is a description; take another folder
  [11]
  $ ls
  F00001.DMS

Its words are two numbers in plain digits.

  $ mkdir ../words && cd ../words
  $ for words in 'load' 'load 1' 'load 1 2 3' 'load a 1' 'load 1 -1' 'load 1 20001' 'load 18446744073709551616 1' 'Load 1 1'; do
  >   "$DMS" $words
  >   echo $?
  > done
  dms: bad words
  dms: see dms --help
  dms: usage: dms load SEED N
  1
  dms: bad words
  dms: see dms --help
  dms: usage: dms load SEED N
  1
  dms: bad words
  dms: see dms --help
  dms: usage: dms load SEED N
  1
  dms: bad words
  dms: see dms --help
  dms: usage: dms load SEED N
  1
  dms: bad words
  dms: see dms --help
  dms: usage: dms load SEED N
  1
  dms: bad words
  dms: see dms --help
  dms: usage: dms load SEED N
  1
  dms: bad words
  dms: see dms --help
  dms: usage: dms load SEED N
  1
  dms: bad words
  dms: see dms --help
  1
  $ ls
  $ "$DMS" load 018446744073709551615 000 | head -1
  LINES 4

The same numbers give the same lines, and each line is answered once at the end. It takes nothing of its input.

  $ mkdir ../first ../second && cd ../first
  $ "$DMS" load 7 20000 < /dev/null > ../first.lines
  $ cd ../second
  $ echo left | { "$DMS" load 7 20000 > ../second.lines; cat; }
  left
  $ cd ..
  $ cmp first.lines second.lines
  $ cut -d' ' -f1 first.lines
  LINES
  DONE
  EXCEPTIONS
  HELD
  UNANSWERED
  QUIET
  RECORDS
  $ head -1 first.lines
  LINES 20004
  $ awk '$1 == "DONE" || $1 == "EXCEPTIONS" || $1 == "UNANSWERED" { n += $2 } END { print n }' first.lines
  20004
  $ for file in first/F*.DMS; do cmp "$file" "second/$(basename "$file")"; done

The last point of the audit is the last quiet point, the next run opens the database there, and it has as many accounts as the summary says.

  $ points=$(sed -n 's/^QUIET POINTS //p' first.lines)
  $ cd first
  $ "$DMS" print audit | tail -1 | cut -d' ' -f3,4 | sed "s/ $points\$/ OF THE SUMMARY/"
  CONTROL OF THE SUMMARY
  $ { echo 'A: OPEN INQUIRY'; seq 1 1000 | sed 's/.*/A: FIND ACCT-SET AT ANO = &/'; } | "$DMS" run | grep -c 'A DONE$' > ../found
  $ records=$(sed -n 's/^RECORDS //p' ../first.lines)
  $ test $(cat ../found) = $((records + 1))
