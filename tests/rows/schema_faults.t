The first fault of each text, and its place. A place counts bytes from 1; that of the end is one behind the last byte.

  $ first() { printf "$1" | "$DMS" try 2>&1 || :; }

A byte that begins no token, and a string that is unfinished or too long.

  $ first '#'
  dms: schema: bad character at 1
  $ first 'D DATA SET (X & NUMBER(4););'
  dms: schema: bad character at 15
  $ first 'D DATA SET (X ALPHA(4) INITIALVALUE = "AB'
  dms: schema: bad character at 39
  $ first 'D DATA SET (X ALPHA(4) INITIALVALUE = "A\tB";);'
  dms: schema: bad character at 39
  $ first 'D DATA SET (X ALPHA(200) INITIALVALUE = "AAAAAAAAAAAAAAAAAAAAAAAAAAAAAAAAAAAAAAAAAAAAAAAAAAAAAAAAAAAAAAAAAAAAAAAAAAAAAAAAAAAAAAAAAAAAAAAAAAAAAAAAAAAAAAAAAAAAAAAAAAAAAAAAAAAAAAAAAAAAAAAAAAAAAAAAAAAAAAAAAAAAAAAAAAAAAAAAAAAAAAAAAAAAAAAAAAAAAAAAA";);'
  dms: schema: bad character at 41
  $ first 'D DATA SET (X NUMBER(4) INITIALVALUE = + 4;);'
  dms: schema: bad character at 40
  $ first 'D DATA SET (X NUMBER(4.););'
  dms: schema: bad character at 23
  $ first 'D DATA SET (X NUMBER(.5););'
  dms: schema: bad character at 22
  $ first 'D DATA SET %% a \177\n(X NUMBER(4););'
  dms: schema: bad character at 16
  $ first 'A SET OF B- ;'
  dms: schema: bad character at 11

A token that the grammar doesn't allow, or the text's end.

  $ first 'SET'
  dms: schema: unexpected at 1
  $ first 'D GROUP (X NUMBER(4););'
  dms: schema: unexpected at 3
  $ first 'D DATA (X NUMBER(4););'
  dms: schema: unexpected at 8
  $ first 'D DATA SET ();'
  dms: schema: unexpected at 13
  $ first 'D DATA SET (X NUMBER(4));'
  dms: schema: unexpected at 24
  $ first 'D DATA SET (X NUMBER(4);)'
  dms: schema: unexpected at 26
  $ first 'D DATA SET (DATA NUMBER(4););'
  dms: schema: unexpected at 13
  $ first '1 DATA SET (X NUMBER(4););'
  dms: schema: unexpected at 1
  $ first '1234567890123456789 DATA SET (X NUMBER(4););'
  dms: schema: unexpected at 1
  $ first 'D DATA SET (X NUMBER(4.5););'
  dms: schema: unexpected at 22
  $ first 'D DATA SET (X NUMBER(-4););'
  dms: schema: unexpected at 22
  $ first 'D DATA SET (X NUMBER(S););'
  dms: schema: unexpected at 23
  $ first 'D DATA SET (X NUMBER(4), ;);'
  dms: schema: unexpected at 26
  $ first 'D DATA SET (L LINK OF D;);'
  dms: schema: unexpected at 20
  $ first 'D DATA SET (G GROUP (););'
  dms: schema: unexpected at 22
  $ first 'D DATA SET (G GROUP (L LINK TO D;););'
  dms: schema: unexpected at 24
  $ first 'S SET OF D KEY IS (X Y);'
  dms: schema: unexpected at 22
  $ first 'S SUBSET OF D WHERE X 4;'
  dms: schema: unexpected at 23
  $ first 'S SUBSET OF D WHERE X = ;'
  dms: schema: unexpected at 25
  $ first 'S SUBSET OF D WHERE (X = 4;'
  dms: schema: unexpected at 27
  $ first 'PARAMETERS (SYNCPOINT = 5 BLOCKS);'
  dms: schema: unexpected at 27

A second option, or one that another excludes, at its first word.

  $ first 'D DATA SET (X NUMBER(4) REQUIRED REQUIRED;);'
  dms: schema: unexpected at 34
  $ first 'D DATA SET (X NUMBER(4) NULL, INITIALVALUE = 4;);'
  dms: schema: unexpected at 31
  $ first 'D DATA SET (X NUMBER(4) INITIALVALUE = 4 NULL;);'
  dms: schema: unexpected at 42
  $ first 'S SET OF D KEY IS X DUPLICATES NO DUPLICATES;'
  dms: schema: unexpected at 32
  $ first 'S SET OF D INDEX SEQUENTIAL, ORDERED LIST;'
  dms: schema: unexpected at 30
  $ first 'S SET OF D KEY IS X, KEY IS Y;'
  dms: schema: unexpected at 22
  $ first 'D DATA SET (X NUMBER(4);) POPULATION = 5 POPULATION = 6;'
  dms: schema: unexpected at 42
  $ first 'D DATA SET (X NUMBER(4);) VERIFY X = 4, VERIFY X = 5;'
  dms: schema: unexpected at 41
  $ first 'PARAMETERS (BUFFERS = 9 BLOCKS, BUFFERS = 9 BLOCKS);'
  dms: schema: unexpected at 33
  $ first 'PARAMETERS (BUFFERS = 9 BLOCKS); PARAMETERS (BUFFERS = 9 BLOCKS);'
  dms: schema: unexpected at 34
  $ first 'AUDIT TRAIL (FILES = 9, FILES = 9);'
  dms: schema: unexpected at 25
  $ first 'AUDIT TRAIL (FILES = 9); AUDIT TRAIL (FILES = 9);'
  dms: schema: unexpected at 26

A number outside its range.

  $ first 'D DATA SET (X ALPHA(0););'
  dms: schema: number out of range at 21
  $ first 'D DATA SET (X ALPHA(201););'
  dms: schema: number out of range at 21
  $ first 'D DATA SET (X NUMBER(0););'
  dms: schema: number out of range at 22
  $ first 'D DATA SET (X NUMBER(19););'
  dms: schema: number out of range at 22
  $ first 'D DATA SET (X NUMBER(S19););'
  dms: schema: number out of range at 23
  $ first 'D DATA SET (X NUMBER(4,5););'
  dms: schema: number out of range at 24
  $ first 'D DATA SET (X FIELD(0););'
  dms: schema: number out of range at 21
  $ first 'D DATA SET (X FIELD(49););'
  dms: schema: number out of range at 21
  $ first 'D DATA SET (X NUMBER(4);) POPULATION = 0;'
  dms: schema: number out of range at 40
  $ first 'D DATA SET (X NUMBER(4);) POPULATION = 1000001;'
  dms: schema: number out of range at 40
  $ first 'PARAMETERS (SYNCPOINT = 0 TRANSACTIONS);'
  dms: schema: number out of range at 25
  $ first 'PARAMETERS (SYNCPOINT = 10001 TRANSACTIONS);'
  dms: schema: number out of range at 25
  $ first 'PARAMETERS (CONTROLPOINT = 10001 SYNCPOINTS);'
  dms: schema: number out of range at 28
  $ first 'PARAMETERS (BUFFERS = 7 BLOCKS);'
  dms: schema: number out of range at 23
  $ first 'PARAMETERS (BUFFERS = 4097 BLOCKS);'
  dms: schema: number out of range at 23
  $ first 'AUDIT TRAIL (BLOCKS = 7);'
  dms: schema: number out of range at 23
  $ first 'AUDIT TRAIL (BLOCKS = 513);'
  dms: schema: number out of range at 23
  $ first 'AUDIT TRAIL (FILES = 1);'
  dms: schema: number out of range at 22
  $ first 'AUDIT TRAIL (FILES = 10000);'
  dms: schema: number out of range at 22
  $ first 'D DATA SET (X NUMBER(1234567890123456789););'
  dms: schema: number out of range at 22
  $ first 'S SUBSET OF D WHERE X = 1234567890123456789;'
  dms: schema: number out of range at 25

A name used twice.

  $ first 'N DATA SET (X NUMBER(4);); N DATA SET (X NUMBER(4););'
  dms: schema: twice N
  $ first 'D DATA SET (N NUMBER(4); N GROUP (X NUMBER(4);););'
  dms: schema: twice N
  $ first 'R RESTART DATA SET (P ALPHA(1);); N RESTART DATA SET (P ALPHA(1););'
  dms: schema: twice N

A name that is not declared.

  $ first 'R RESTART DATA SET (P ALPHA(1);); S SET OF N KEY IS X;'
  dms: schema: unknown N
  $ first 'R RESTART DATA SET (P ALPHA(1);); D DATA SET (L LINK TO N;);'
  dms: schema: unknown N
  $ first 'R RESTART DATA SET (P ALPHA(1);); D DATA SET (X NUMBER(4);); S SET OF D KEY IS N;'
  dms: schema: unknown N
  $ first 'R RESTART DATA SET (P ALPHA(1);); D DATA SET (X NUMBER(4);) VERIFY N = 4;'
  dms: schema: unknown N

A key that is none.

  $ first 'R RESTART DATA SET (P ALPHA(1);); D DATA SET (N LINK TO R;); S SET OF D KEY IS N;'
  dms: schema: bad key N
  $ first 'R RESTART DATA SET (P ALPHA(1);); D DATA SET (N NUMBER(4);); S SET OF D KEY IS (N, N);'
  dms: schema: bad key N
  $ first 'R RESTART DATA SET (P ALPHA(1);); D DATA SET (X NUMBER(4);); N SET OF D;'
  dms: schema: bad key N
  $ first 'R RESTART DATA SET (P ALPHA(1);); D DATA SET (G GROUP (X0 BOOLEAN; X1 BOOLEAN; X2 BOOLEAN; X3 BOOLEAN; X4 BOOLEAN; X5 BOOLEAN; X6 BOOLEAN; X7 BOOLEAN; X8 BOOLEAN; X9 BOOLEAN; X10 BOOLEAN; X11 BOOLEAN; X12 BOOLEAN; X13 BOOLEAN; X14 BOOLEAN; X15 BOOLEAN; X16 BOOLEAN; );); N SET OF D KEY IS G;'
  dms: schema: bad key N
  $ first 'R RESTART DATA SET (P ALPHA(1);); D DATA SET (G GROUP (N BOOLEAN;);); S SET OF D KEY IS (N, G);'
  dms: schema: bad key N

A condition, or an initial value, of another kind.

  $ first 'R RESTART DATA SET (P ALPHA(1);); D DATA SET (N NUMBER(4) INITIALVALUE = "A";);'
  dms: schema: bad condition N
  $ first 'R RESTART DATA SET (P ALPHA(1);); D DATA SET (N NUMBER(4) INITIALVALUE = 12345;);'
  dms: schema: bad condition N
  $ first 'R RESTART DATA SET (P ALPHA(1);); D DATA SET (N NUMBER(4);) VERIFY N = "A";'
  dms: schema: bad condition N
  $ first 'R RESTART DATA SET (P ALPHA(1);); D DATA SET (N LINK TO R;) VERIFY N = NULL;'
  dms: schema: bad condition N
  $ first 'R RESTART DATA SET (P ALPHA(1);); D DATA SET (X NUMBER(4);); N SET OF D WHERE X = 4 KEY IS X;'
  dms: schema: bad condition N

A structure or link that can not stand there.

  $ first 'R RESTART DATA SET (P ALPHA(1);); D DATA SET (X NUMBER(4); N RESTART DATA SET (P ALPHA(1);););'
  dms: schema: bad place N
  $ first 'R RESTART DATA SET (P ALPHA(1); N DATA SET (X NUMBER(4);););'
  dms: schema: bad place N
  $ first 'R RESTART DATA SET (P ALPHA(1);); D DATA SET (X NUMBER(4); E DATA SET (Y NUMBER(4););); F DATA SET (N LINK TO E;);'
  dms: schema: bad place N
  $ first 'R RESTART DATA SET (P ALPHA(1);); D DATA SET (X NUMBER(4); E DATA SET (Y NUMBER(4););); N SET OF E KEY IS Y;'
  dms: schema: bad place N
  $ first 'R RESTART DATA SET (P ALPHA(1);); D DATA SET (A BOOLEAN; N SET OF D KEY IS A;);'
  dms: schema: bad place N

Faults stand in text order, whatever they are: an unknown name before a name used twice, and the missing restart data set last.

  $ first 'S SET OF N KEY IS X; D DATA SET (X NUMBER(4);); D DATA SET (X NUMBER(4););'
  dms: schema: unknown N
  $ first 'D DATA SET (X NUMBER(4););'
  dms: schema: no restart data set

Limits, and what stands at their edge. A record has 480 bytes at most, a key 96.

  $ first 'R RESTART DATA SET (P ALPHA(1);); D DATA SET (A ALPHA(200); B ALPHA(200); C ALPHA(77););'
  $ first 'R RESTART DATA SET (P ALPHA(1);); D DATA SET (A ALPHA(200); B ALPHA(200); C ALPHA(78););'
  dms: schema: record of 481 bytes
  $ first 'R RESTART DATA SET (P ALPHA(1);); D DATA SET (A ALPHA(95);); S SET OF D KEY IS A;'
  $ first 'R RESTART DATA SET (P ALPHA(1);); D DATA SET (A ALPHA(96);); S SET OF D KEY IS A;'
  dms: schema: key of 97 bytes

A name has 30 bytes at most, and structures stand within structures up to level 3.

  $ first 'R RESTART DATA SET (P ALPHA(1);); A23456789012345678901234567890 DATA SET (X NUMBER(4););'
  $ first 'R RESTART DATA SET (P ALPHA(1);); A234567890123456789012345678901 DATA SET (X NUMBER(4););'
  dms: schema: more than 30
  $ first 'R RESTART DATA SET (P ALPHA(1);); A DATA SET (X NUMBER(4); B DATA SET (X NUMBER(4); C DATA SET (X NUMBER(4););););'
  $ first 'R RESTART DATA SET (P ALPHA(1);); A DATA SET (X NUMBER(4); B DATA SET (X NUMBER(4); C DATA SET (X NUMBER(4); D DATA SET (X NUMBER(4);););););'
  dms: schema: more than 3
  $ first 'R RESTART DATA SET (P ALPHA(1);); A DATA SET (X NUMBER(4); B DATA SET (X NUMBER(4); C DATA SET (X NUMBER(4); S SET OF C KEY IS X;);););'
  dms: schema: more than 3

A data set has 60 items, a key 16 parts, a condition 100 nodes, a schema 200 structures and 4,000 counted links at most.

  $ many() { seq $1 | sed "s/.*/$2/" | tr -d '\n'; }
  $ R='R RESTART DATA SET (P ALPHA(1););'
  $ first "$R D DATA SET ($(many 60 "X& BOOLEAN;"));"
  $ first "$R D DATA SET ($(many 61 "X& BOOLEAN;"));"
  dms: schema: more than 60
  $ first "$R D DATA SET ($(many 17 "X& BOOLEAN;")); S SET OF D KEY IS (X17$(many 15 ", X&"));"
  $ first "$R D DATA SET ($(many 17 "X& BOOLEAN;")); S SET OF D KEY IS (X17$(many 16 ", X&"));"
  dms: schema: more than 16
  $ first "$R D DATA SET (X NUMBER(4);) VERIFY $(many 99 "NOT ")X = 4;"
  $ first "$R D DATA SET (X NUMBER(4);) VERIFY $(many 100 "NOT ")X = 4;"
  dms: schema: more than 100
  $ first "$R D DATA SET (X NUMBER(4);); $(many 198 "S& SET OF D KEY IS X;")"
  $ first "$R D DATA SET (X NUMBER(4);); $(many 199 "S& SET OF D KEY IS X;")"
  dms: schema: more than 200
  $ links=$(many 60 'L& LINK TO R COUNTED;')
  $ four=$(many 66 "D& DATA SET ($links);")
  $ first "$R $four D67 DATA SET ($(many 40 'L& LINK TO R COUNTED;'));"
  $ first "$R $four D67 DATA SET ($(many 41 'L& LINK TO R COUNTED;'));"
  dms: schema: more than 4000

The 61st member passes the limit only where the word behind its name shows that it is an item or a link. Else what stands there is the fault. Here `X` is the 741st byte.

  $ sixty="R RESTART DATA SET ($(many '-w 60' 'X& BOOLEAN;')"
  $ for kind in 'ALPHA(1)' 'NUMBER(4)' BOOLEAN 'FIELD(1)' 'LINK TO R' LINK; do first "${sixty}X $kind;);"; done
  dms: schema: more than 60
  dms: schema: more than 60
  dms: schema: more than 60
  dms: schema: more than 60
  dms: schema: more than 60
  dms: schema: more than 60
  $ first "${sixty}X FOO"
  dms: schema: unexpected at 743
  $ first "${sixty}X 5"
  dms: schema: unexpected at 743
  $ first "${sixty}X;"
  dms: schema: unexpected at 742
  $ first "${sixty}X KEY"
  dms: schema: unexpected at 743
  $ first "${sixty}X \$"
  dms: schema: bad character at 743
  $ first "${sixty}X"
  dms: schema: unexpected at 742
  $ first "${sixty}G GROUP (X BOOLEAN;"
  dms: schema: more than 60
  $ first "${sixty}G GROUP (X;"
  dms: schema: unexpected at 751
  $ first "${sixty}G GROUP (X LINK TO R;"
  dms: schema: unexpected at 752

So does the 201st structure only where RESTART, DATA, SET or SUBSET follows. Here `X` is the 2,820th byte.

  $ most="$R$(many '-w 199' 'S& SET OF R;')"
  $ for kind in 'RESTART DATA SET (' 'DATA SET (' 'SET OF R;' 'SUBSET OF R;' SET; do first "${most}X $kind"; done
  dms: schema: more than 200
  dms: schema: more than 200
  dms: schema: more than 200
  dms: schema: more than 200
  dms: schema: more than 200
  $ first "${most}X FOO"
  dms: schema: unexpected at 2822
  $ first "${most}X LINK TO R;"
  dms: schema: unexpected at 2822
  $ first "${most}X \$"
  dms: schema: bad character at 2822
  $ first "${most}X;"
  dms: schema: unexpected at 2821
  $ first "${most}X"
  dms: schema: unexpected at 2821

A text has 1,000,000 bytes at most, and a description 65,535.

  $ { printf "$R"; yes "" | head -n 999967; } | wc -c
  1000000
  $ { printf "$R"; yes "" | head -n 999967; } | "$DMS" try
  $ { printf "$R"; yes "" | head -n 999968; } | "$DMS" try
  dms: schema: more than 1000000
  [2]
  $ items=$(many '-w 60' 'A234567890123456789012345678& BOOLEAN;')
  $ sets=$(many "11 39" "D& DATA SET ($items);")
  $ rest=$(many '-w 18' 'A234567890123456789012345678& BOOLEAN;')
  $ first "$R $sets E DATA SET ($rest B2345678901234567890123456 BOOLEAN;);"
  $ first "$R $sets E DATA SET ($rest B23456789012345678901234567 BOOLEAN;);"
  dms: schema: description of 65536 bytes
