Lines that are bad, each at its first bad byte or token, or one behind its end where something is missing. A line that is empty
but for blanks and a comment counts and is not answered.

  $ cat > script <<'END'
  > RDS RESTART DATA SET (PID ALPHA(10););
  > D DATA SET (X NUMBER(4); T ALPHA(5); B BOOLEAN; F FIELD(8); L LINK TO RDS; G GROUP (H NUMBER(2); I NUMBER(2);););
  > D-SET SET OF D KEY IS (X, T);
  > SCRIPT
  > : OPEN UPDATE
  > A OPEN UPDATE
  > A
  > A:
  > A: OPENS UPDATE
  > A: OPEN
  > A: OPEN READONLY
  > A: OPEN UPDATE X
  > A: OPEN UPDATE; ;
  > DATA: OPEN UPDATE
  > 1A: OPEN UPDATE
  > A-: OPEN UPDATE
  > A: CREATE
  > A: CREATE E
  > A: CREATE D-SET
  > A: CREATE D D
  > A: STORE X
  > A: GET D Y
  > A: GET D X T
  > A: GET D X,
  > A: PUT D
  > A: PUT D G = 4
  > A: PUT D L = 4
  > A: PUT D X 4
  > A: PUT D X =
  > A: PUT D X = "A"
  > A: PUT D T = 4
  > A: PUT D B = 1
  > A: PUT D F = TRUE
  > A: PUT D X = 1, X = 2
  > A: PUT D X = 1 T = "A"
  > A: PUT D T = "AB
  > A: PUT D X = 1234567890123456789
  > A: PUT D X = 1,
  > A: FIND
  > A: FIND X
  > A: FIND FIRST
  > A: FIND FIRST X
  > A: FIND D-SET
  > A: FIND D-SET AT
  > A: FIND D-SET AT T = "A"
  > A: FIND D-SET AT X = "A"
  > A: FIND D AT X = 1
  > A: BEGIN-TRANSACTION
  > A: BEGIN-TRANSACTION RDS
  > A: BEGIN-TRANSACTION AUDIT D
  > A: END-TRANSACTION NO-AUDIT RDS SYNCS
  > A: ABORT-TRANSACTION
  > A: CLOSE D
  > % nothing but a comment
  > 
  > A: OPEN UPDATE;
  > END
  $ "$DMS" try < script
  1 BADLINE 1
  2 BADLINE 3
  3 BADLINE 2
  4 BADLINE 3
  5 BADLINE 4
  6 BADLINE 8
  7 BADLINE 9
  8 BADLINE 16
  9 BADLINE 17
  10 BADLINE 1
  11 BADLINE 1
  12 BADLINE 2
  13 BADLINE 10
  14 BADLINE 11
  15 BADLINE 11
  16 BADLINE 13
  17 BADLINE 10
  18 BADLINE 10
  19 BADLINE 12
  20 BADLINE 12
  21 BADLINE 9
  22 BADLINE 10
  23 BADLINE 10
  24 BADLINE 12
  25 BADLINE 13
  26 BADLINE 14
  27 BADLINE 14
  28 BADLINE 14
  29 BADLINE 14
  30 BADLINE 17
  31 BADLINE 16
  32 BADLINE 14
  33 BADLINE 14
  34 BADLINE 16
  35 BADLINE 8
  36 BADLINE 9
  37 BADLINE 14
  38 BADLINE 15
  39 BADLINE 14
  40 BADLINE 17
  41 BADLINE 18
  42 BADLINE 22
  43 BADLINE 14
  44 BADLINE 21
  45 BADLINE 22
  46 BADLINE 28
  47 BADLINE 33
  48 BADLINE 21
  49 BADLINE 10
  52 A DONE

A byte that no line holds, in a comment, too; a carriage return that stands before no line feed.

  $ { printf 'RDS RESTART DATA SET (PID ALPHA(10););\nSCRIPT\nA: OPEN UPDATE %% a \001\nA: OPEN\r UPDATE\nA: OPEN UPDATE\r\nA: CLOSE\r'; } > script
  $ "$DMS" try < script
  1 BADLINE 20
  2 BADLINE 8
  3 A DONE
  4 BADLINE 9

Small letters, blanks and comments; structures within D, a group that is shown, and further bad lines.

  $ "$DMS" try <<'END'
  > RDS RESTART DATA SET (PID NUMBER(4););
  > D DATA SET (X NUMBER(4); G GROUP (T ALPHA(4); B BOOLEAN;); F FIELD(3); L LINK TO D; E DATA SET (Y NUMBER(4);); M SUBSET OF D;);
  > S SET OF D KEY IS (T, X);
  > SCRIPT
  > a:open inquiry;
  > A: OPEN % UPDATE
  > A : CLOSE ; % done
  > A: CLOSE :
  > A: PUT D T = "a""b", X = ?
  > A: FIND S AT T "Z"
  > A: FIND D
  > A: FIND FIRST E AT
  > A: FIND FIRST M OF D
  > A: STORE E INTO M
  > A: FIND S AT T = 5
  > A: PUT D X = +
  > A: PUT D X = 4.
  > A: PUT D F = 123456789012345678 X
  > A: GET D L OF D
  > A: GET D , X
  > A: BEGIN-TRANSACTION NO-AUDIT D
  > A: END-TRANSACTION NO-AUDIT RDS; SYNC
  > A: BEGIN-TRANSACTION AUDIT RDS SYNC
  > A: OPEN UPDATE
  > A: CREATE D
  > A: PUT D X = 4.00, B = false , T=""
  > A: GET D F, G, F
  > END
  1 A DONE
  2 BADLINE 17
  3 A DONE
  4 BADLINE 10
  5 BADLINE 26
  6 BADLINE 16
  7 BADLINE 10
  8 BADLINE 17
  9 BADLINE 17
  10 BADLINE 12
  11 BADLINE 18
  12 BADLINE 14
  13 BADLINE 15
  14 BADLINE 33
  15 BADLINE 12
  16 BADLINE 10
  17 BADLINE 31
  18 BADLINE 34
  19 BADLINE 32
  20 A DONE
  21 A DONE
  22 A DONE
  23 A DONE F=NULL, T="", B=FALSE, F=NULL

Bad lines of the verbs on links, embedded records and manual subsets: a subset that isn't a manual one, a link of another data set,
a link that refers to another data set, words that are missing or too many.

  $ "$DMS" try <<'END'
  > RDS RESTART DATA SET (PID NUMBER(4););
  > D DATA SET (X NUMBER(4); L LINK TO D; K LINK TO C; E DATA SET (Y NUMBER(4);); M SUBSET OF D;);
  > C DATA SET (Z NUMBER(4););
  > S SET OF D KEY IS X;
  > SCRIPT
  > A: DELETE
  > A: DELETE S
  > A: DELETE D E
  > A: INSERT D
  > A: INSERT D IN M
  > A: INSERT D INTO S
  > A: INSERT E INTO M
  > A: REMOVE D
  > A: REMOVE D INTO M
  > A: REMOVE CURRENT M
  > A: REMOVE CURRENT FROM S
  > A: REMOVE C FROM M
  > A: ASSIGN D
  > A: ASSIGN D TO L
  > A: ASSIGN D TO L OF
  > A: ASSIGN D TO L OF E
  > A: ASSIGN D TO X OF D
  > A: ASSIGN D TO K OF D
  > A: ASSIGN NULL TO L OF D D
  > A: FIND VIA L
  > A: FIND VIA X OF D
  > A: FIND VIA L OF C
  > A: FIND FIRST M AT X = 1
  > A: FIND M AT X = 1
  > A: PUT D L = 1
  > A: PUT D E = 1
  > A: GET D M
  > END
  1 BADLINE 10
  2 BADLINE 11
  3 BADLINE 13
  4 BADLINE 12
  5 BADLINE 13
  6 BADLINE 18
  7 BADLINE 18
  8 BADLINE 12
  9 BADLINE 13
  10 BADLINE 11
  11 BADLINE 11
  12 BADLINE 18
  13 BADLINE 12
  14 BADLINE 17
  15 BADLINE 20
  16 BADLINE 16
  17 BADLINE 16
  18 BADLINE 16
  19 BADLINE 26
  20 BADLINE 14
  21 BADLINE 13
  22 BADLINE 13
  23 BADLINE 17
  24 BADLINE 14
  25 BADLINE 10
  26 BADLINE 10
  27 BADLINE 10

Bytes that no line holds, also behind a verb and in a line of its own; a line of 2,000 bytes, and one of 2,001.

  $ { printf 'RDS RESTART DATA SET (PID ALPHA(10););\nSCRIPT\nA: CLO\rSE\n%% \001\nA: CLOSE\000; D\nA: CLOSE%1992s\nA: CLOSE%1993s\n' '' ''; } > script
  $ "$DMS" try < script
  1 BADLINE 4
  2 BADLINE 3
  3 BADLINE 9
  4 A EXCEPTION OPENERROR A
  5 BADLINE 2001
