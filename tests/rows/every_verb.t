Every verb, each script under `try` and over a new database on disk: both answer the same. Customers have notes of their own and a list of accounts, and
accounts a counted link to who holds them.

  $ cat > bank.schema <<'END'
  > PARAMETERS (SYNCPOINT = 100 TRANSACTIONS, CONTROLPOINT = 2 SYNCPOINTS);
  > AUDIT TRAIL (FILES = 9900);
  > RDS RESTART DATA SET (PID ALPHA(10) REQUIRED; STEP NUMBER(6););
  > RDS-SET SET OF RDS KEY IS PID;
  > CUSTOMER DATA SET (
  >   CNO NUMBER(6) REQUIRED;  NAME ALPHA(30);  MAIN-ACCT LINK TO ACCOUNT;
  >   NOTE DATA SET (NNO NUMBER(4); REMARK ALPHA(40););
  >   NOTE-SET SET OF NOTE KEY IS NNO;
  >   ACCTS SUBSET OF ACCOUNT KEY IS ANO; );
  > CUST-SET SET OF CUSTOMER KEY IS CNO, INDEX SEQUENTIAL;
  > ACCOUNT DATA SET (
  >   ANO NUMBER(8) REQUIRED;  BAL NUMBER(S5,2) INITIALVALUE = 0;
  >   ACTIVE BOOLEAN INITIALVALUE = TRUE;  HOLDER LINK TO CUSTOMER COUNTED;
  > ) VERIFY BAL >= -500;
  > ACCT-SET SET OF ACCOUNT KEY IS ANO;
  > RICH SUBSET OF ACCOUNT WHERE (BAL > 100) KEY IS BAL DESCENDING, DUPLICATES, ORDERED LIST;
  > END
  $ cat > first <<'END'
  > A: OPEN UPDATE
  > B: OPEN INQUIRY
  > A: CREATE RDS
  > A: PUT RDS PID = "A", STEP = 1
  > A: BEGIN-TRANSACTION AUDIT RDS
  > A: CREATE CUSTOMER
  > A: PUT CUSTOMER CNO = 7, NAME = "ANN LEE"
  > A: STORE CUSTOMER
  > A: CREATE ACCOUNT
  > A: PUT ACCOUNT ANO = 100, BAL = 250.5
  > A: STORE ACCOUNT
  > A: ASSIGN CUSTOMER TO HOLDER OF ACCOUNT
  > A: INSERT ACCOUNT INTO ACCTS
  > A: END-TRANSACTION NO-AUDIT RDS SYNC
  > END
  $ both() {
  >     (cat "$1.schema"; echo SCRIPT; cat script) | "$DMS" try > tried
  >     rm -rf db && mkdir db && (cd db && "$DMS" compile < "../$1.schema" && "$DMS" initialize) > made
  >     (cd db && "$DMS" run < ../script) > ran
  >     diff tried ran && cat ran
  > }

The first lines as they are answered whole, and then what another program finds. The members of ACCTS are those of its current customer.

  $ cat first - > script <<'END'
  > B: FIND CUST-SET AT CNO = 7
  > B: FIND FIRST ACCTS
  > B: GET ACCOUNT
  > B: FIND NEXT RICH
  > B: STORE ACCOUNT
  > B: FIND NEXT RICH
  > END
  $ both bank
  1 A DONE
  2 B DONE
  3 A DONE
  4 A DONE
  5 A DONE
  6 A DONE
  7 A DONE
  8 A DONE
  9 A DONE
  10 A DONE
  11 A DONE
  12 A DONE
  13 A DONE
  14 A DONE
  SYNCPOINT 1
  15 B DONE
  16 B DONE
  17 B DONE ANO=100, BAL=250.50, ACTIVE=TRUE, HOLDER=1
  18 B DONE
  19 B EXCEPTION READONLY B
  20 B EXCEPTION NOTFOUND RICH

An account number that stands already is a duplicate; equal balances stand in the order of record numbers.

  $ cat first - > script <<'END'
  > A: BEGIN-TRANSACTION NO-AUDIT RDS
  > A: CREATE ACCOUNT
  > A: PUT ACCOUNT ANO = 100, BAL = 250.50
  > A: STORE ACCOUNT
  > A: PUT ACCOUNT ANO = 101
  > A: STORE ACCOUNT
  > A: END-TRANSACTION NO-AUDIT RDS
  > A: FIND FIRST RICH
  > A: GET ACCOUNT ANO
  > A: FIND NEXT RICH
  > A: GET ACCOUNT ANO
  > END
  $ both bank | grep -v 'DONE$'
  SYNCPOINT 1
  18 A EXCEPTION DUPLICATES ACCT-SET
  23 A DONE ANO=100
  25 A DONE ANO=101

A program goes on behind a member that has moved away in the meantime.

  $ cat first - > script <<'END'
  > A: BEGIN-TRANSACTION NO-AUDIT RDS
  > A: CREATE ACCOUNT
  > A: PUT ACCOUNT ANO = 101, BAL = 200
  > A: STORE ACCOUNT
  > B: FIND FIRST RICH
  > A: LOCK ACCT-SET AT ANO = 100
  > A: PUT ACCOUNT BAL = 50
  > A: STORE ACCOUNT
  > B: FIND NEXT RICH
  > B: GET ACCOUNT ANO
  > END
  $ both bank | grep -v 'DONE$'
  SYNCPOINT 1
  24 B DONE ANO=101

A record that an entry names is in use. Once it is gone, links to it that aren't counted are null, also where its number is given to a new record.

  $ cat first - > script <<'END'
  > A: BEGIN-TRANSACTION NO-AUDIT RDS
  > A: LOCK CUST-SET AT CNO = 7
  > A: ASSIGN ACCOUNT TO MAIN-ACCT OF CUSTOMER
  > A: LOCK ACCT-SET AT ANO = 100
  > A: DELETE ACCOUNT
  > A: REMOVE ACCOUNT FROM ACCTS
  > A: DELETE ACCOUNT
  > A: GET CUSTOMER MAIN-ACCT
  > C: OPEN UPDATE
  > C: CREATE ACCOUNT
  > C: PUT ACCOUNT ANO = 200
  > C: BEGIN-TRANSACTION NO-AUDIT RDS
  > C: STORE ACCOUNT
  > A: FIND VIA MAIN-ACCT OF CUSTOMER
  > END
  $ both bank | grep -v 'DONE$'
  SYNCPOINT 1
  19 A EXCEPTION INUSE ACCOUNT
  22 A DONE MAIN-ACCT=NULL
  28 A EXCEPTION NOTFOUND MAIN-ACCT

A record is in use too where a counted link refers to it, and where it owns entries or records.

  $ cat first - > script <<'END'
  > A: BEGIN-TRANSACTION NO-AUDIT RDS
  > A: LOCK CUST-SET AT CNO = 7
  > A: DELETE CUSTOMER
  > A: LOCK ACCT-SET AT ANO = 100
  > A: ASSIGN NULL TO HOLDER OF ACCOUNT
  > A: REMOVE ACCOUNT FROM ACCTS
  > A: CREATE NOTE
  > A: PUT NOTE NNO = 1
  > A: STORE NOTE
  > A: DELETE CUSTOMER
  > A: DELETE NOTE
  > A: DELETE CUSTOMER
  > END
  $ both bank | grep -v 'DONE$'
  SYNCPOINT 1
  17 A EXCEPTION INUSE CUSTOMER
  24 A EXCEPTION INUSE CUSTOMER

The number of a record that is gone is free again.

  $ cat > two.schema <<'END'
  > AUDIT TRAIL (FILES = 9900);
  > RDS RESTART DATA SET (PID ALPHA(10););
  > D DATA SET (X NUMBER(4);) POPULATION = 2;
  > END
  $ cat > script <<'END'
  > A: OPEN UPDATE
  > A: BEGIN-TRANSACTION NO-AUDIT RDS
  > A: CREATE D
  > A: STORE D
  > A: CREATE D
  > A: STORE D
  > A: CREATE D
  > A: STORE D
  > A: LOCK FIRST D
  > A: DELETE D
  > A: CREATE D
  > A: STORE D
  > END
  $ both two
  1 A DONE
  2 A DONE
  3 A DONE
  4 A DONE
  5 A DONE
  6 A DONE
  7 A DONE
  8 A EXCEPTION LIMITERROR D
  9 A DONE
  10 A DONE
  11 A DONE
  12 A DONE

A schema at its limits: 200 structures, 60 items in a data set, and data sets that stand within each other three deep.

  $ {
  >     echo 'AUDIT TRAIL (FILES = 9900);'
  >     echo 'RDS RESTART DATA SET (PID ALPHA(10););'
  >     echo 'D DATA SET ('
  >     for i in $(seq 59); do echo "  I$i ALPHA(3);"; done
  >     echo '  L LINK TO D;'
  >     echo '  E DATA SET (Y NUMBER(4); F DATA SET (Z NUMBER(4);); M SUBSET OF F KEY IS Z;);'
  >     echo ');'
  >     for i in $(seq 195); do echo "S$i SET OF D KEY IS I$(( (i - 1) % 59 + 1 )), DUPLICATES;"; done
  > } > most.schema
  $ cat > script <<'END'
  > A: OPEN UPDATE
  > A: BEGIN-TRANSACTION NO-AUDIT RDS
  > A: CREATE D
  > A: PUT D I1 = "A", I59 = "Z"
  > A: STORE D
  > A: ASSIGN D TO L OF D
  > A: CREATE E
  > A: STORE E
  > A: CREATE F
  > A: PUT F Z = 3
  > A: STORE F
  > A: INSERT F INTO M
  > A: END-TRANSACTION NO-AUDIT RDS SYNC
  > A: FIND S195 AT I18 = NULL
  > A: FIND VIA L OF D
  > A: FIND FIRST E
  > A: FIND FIRST M
  > A: GET F
  > A: BEGIN-TRANSACTION NO-AUDIT RDS
  > A: LOCK FIRST F
  > A: DELETE F
  > A: REMOVE F FROM M
  > A: DELETE F
  > A: LOCK FIRST E
  > A: DELETE E
  > A: LOCK S1 AT I1 = "A"
  > A: GET D L
  > A: DELETE D
  > A: FIND FIRST S195
  > END
  $ both most
  1 A DONE
  2 A DONE
  3 A DONE
  4 A DONE
  5 A DONE
  6 A DONE
  7 A DONE
  8 A DONE
  9 A DONE
  10 A DONE
  11 A DONE
  12 A DONE
  13 A DONE
  SYNCPOINT 1
  14 A DONE
  15 A DONE
  16 A DONE
  17 A DONE
  18 A DONE Z=3
  19 A DONE
  20 A DONE
  21 A EXCEPTION INUSE F
  22 A DONE
  23 A DONE
  24 A DONE
  25 A DONE
  26 A DONE
  27 A DONE L=1
  28 A DONE
  29 A EXCEPTION NOTFOUND S195
  $ cat made
  COMPILED 200 STRUCTURES
  INITIALIZED AT POINT 0
