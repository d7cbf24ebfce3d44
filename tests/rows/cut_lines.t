Lines of the verbs that find, lock and free, cut at each byte. Each part of a line is a bad line or a verb, and gets exactly one answer; a part
that holds nothing gets none.

  $ cat > schema <<'END'
  > RDS RESTART DATA SET (PID ALPHA(10););
  > D DATA SET (X NUMBER(4); T ALPHA(4);); S SET OF D KEY IS (X, T);
  > SCRIPT
  > END
  $ cat > lines <<'END'
  > A: LOCK FIRST D
  > A: MODIFY LAST S;
  > A: FIND NEXT S
  > A: LOCK PRIOR D % back
  > A: FIND CURRENT D;
  > A: LOCK CURRENT RDS
  > A: FREE D
  > A: FREE RDS ;
  > A: LOCK S AT X = 12 AND T = "A""B"
  > A: MODIFY S AT X = NULL AND T = NULL;
  > END
  $ cut_all() { awk '{ for (n = 0; n <= length($0); n++) print substr($0, 1, n) }'; }
  $ cut_all < lines > script
  $ wc -l < script
  208
  $ cat schema script | "$DMS" try > out
  $ grep -vc '^ *$' script
  198
  $ wc -l < out
  198
  $ sed -E 's/^[0-9]+ //; s/BADLINE [0-9]+/BADLINE/' out | sort | uniq -c | sed -E 's/^ +//'
  28 A EXCEPTION OPENERROR A
  170 BADLINE

One of them, part by part, by a program that is open.

  $ { echo 'A: OPEN UPDATE'; head -n 1 lines | cut_all; } > script
  $ cat schema script | "$DMS" try
  1 A DONE
  3 BADLINE 2
  4 BADLINE 3
  5 BADLINE 4
  6 BADLINE 4
  7 BADLINE 4
  8 BADLINE 4
  9 BADLINE 8
  10 BADLINE 9
  11 BADLINE 9
  12 BADLINE 9
  13 BADLINE 9
  14 BADLINE 9
  15 BADLINE 14
  16 BADLINE 15
  17 A EXCEPTION NOTFOUND D
  $ { echo 'A: OPEN UPDATE'; echo 'A: LOCK S AT X = 12 AND T = "A"' | cut_all; } > script
  $ cat schema script | "$DMS" try
  1 A DONE
  3 BADLINE 2
  4 BADLINE 3
  5 BADLINE 4
  6 BADLINE 4
  7 BADLINE 4
  8 BADLINE 4
  9 BADLINE 8
  10 BADLINE 9
  11 BADLINE 10
  12 BADLINE 11
  13 BADLINE 11
  14 BADLINE 13
  15 BADLINE 14
  16 BADLINE 15
  17 BADLINE 16
  18 BADLINE 17
  19 BADLINE 18
  20 A EXCEPTION NOTFOUND S
  21 A EXCEPTION NOTFOUND S
  22 A EXCEPTION NOTFOUND S
  23 BADLINE 21
  24 BADLINE 21
  25 BADLINE 24
  26 BADLINE 25
  27 BADLINE 26
  28 BADLINE 27
  29 BADLINE 28
  30 BADLINE 29
  31 BADLINE 29
  32 BADLINE 29
  33 A EXCEPTION NOTFOUND S

The same lines over a database on disk.

  $ mkdir db && cd db
  $ head -n 2 ../schema | "$DMS" compile
  COMPILED 3 STRUCTURES
  $ "$DMS" initialize
  INITIALIZED AT POINT 0
  $ cut_all < ../lines | "$DMS" run > out
  $ cmp out ../out

Lines of the verbs that change what stands, and of links. The good parts are the whole lines, REMOVE without its semicolon, ASSIGN NULL with
a blank or without its semicolon, and GET D with a blank or without its item.

  $ cat > schema <<'END'
  > RDS RESTART DATA SET (PID ALPHA(10););
  > C DATA SET (Z NUMBER(4); E DATA SET (Y NUMBER(4);); M SUBSET OF D;);
  > D DATA SET (X NUMBER(4); L LINK TO C;);
  > SCRIPT
  > END
  $ cat > lines <<'END'
  > A: DELETE D
  > A: INSERT D INTO M
  > A: REMOVE D FROM M;
  > A: ASSIGN C TO L OF D
  > A: ASSIGN NULL TO L OF D ;
  > A: FIND VIA L OF D
  > A: LOCK VIA L OF D
  > A: GET D L
  > A: CREATE E
  > A: FIND FIRST M
  > END
  $ cut_all < lines > script
  $ grep -vc '^ *$' script
  167
  $ cat schema script | "$DMS" try | sed -E 's/^[0-9]+ //; s/BADLINE [0-9]+/BADLINE/' | sort | uniq -c | sed -E 's/^ +//'
  15 A EXCEPTION OPENERROR A
  152 BADLINE
