The scripts in `examples`. One that stops at the first line that isn't done.

  $ export DMS
  $ examples="$TESTDIR"/../../examples
  $ mkdir db && cd db
  $ cat > ../schema <<'END'
  > AUDIT TRAIL (FILES = 9900);
  > RDS RESTART DATA SET (STEP NUMBER(6););
  > PERSON DATA SET (PNO NUMBER(4) REQUIRED; NAME ALPHA(20); WAGE NUMBER(S7,2); ACTIVE BOOLEAN; FLAGS FIELD(3); HOME GROUP (STREET ALPHA(20); TOWN ALPHA(20);););
  > PERSON-SET SET OF PERSON KEY IS PNO;
  > END
  $ "$DMS" compile < ../schema && "$DMS" initialize
  COMPILED 3 STRUCTURES
  INITIALIZED AT POINT 0
  $ { echo 'A: OPEN UPDATE'
  >   for n in 1 2 3 4 5; do
  >     printf 'A: BEGIN-TRANSACTION NO-AUDIT RDS\nA: CREATE PERSON\n'
  >     printf 'A: PUT PERSON PNO = %s, NAME = "say ""%s"", so", WAGE = -%s.5, FLAGS = %s, TOWN = "a, b=%s"\n' $n $n $n $n $n
  >     printf 'A: STORE PERSON\nA: END-TRANSACTION NO-AUDIT RDS\n'
  >   done; } | "$DMS" run | tail -n 1
  26 A DONE

A script doesn't look at its answers: a LOCK that finds nothing leaves the record before it current, and the next STORE is of that one.

  $ cat > ../batch <<'END'
  > % a batch
  > A: OPEN UPDATE
  > 
  > A: BEGIN-TRANSACTION NO-AUDIT RDS
  > A: LOCK PERSON-SET AT PNO = 1
  > A: PUT PERSON WAGE = 50
  > A: STORE PERSON
  > A: LOCK PERSON-SET AT PNO = 99
  > A: PUT PERSON WAGE = 0
  > A: STORE PERSON
  > A: END-TRANSACTION NO-AUDIT RDS SYNC
  > END
  $ wage() { printf 'A: OPEN INQUIRY\nA: FIND PERSON-SET AT PNO = 1\nA: GET PERSON WAGE\n' | "$DMS" run | tail -n 1; }
  $ cp -r . ../copy; cd ../copy
  $ "$DMS" run < ../batch
  2 A DONE
  4 A DONE
  5 A DONE
  6 A DONE
  7 A DONE
  8 A EXCEPTION NOTFOUND PERSON-SET
  9 A DONE
  10 A DONE
  11 A DONE
  SYNCPOINT 6
  $ wage
  3 A DONE WAGE=0.00
  $ cd ../db
  $ "$examples"/carefully.sh < ../batch
  2 A DONE
  4 A DONE
  5 A DONE
  6 A DONE
  7 A DONE
  8 A EXCEPTION NOTFOUND PERSON-SET
  [20]
  $ wage
  3 A DONE WAGE=-1.50

Where each line is done it is as `run` is. Its status is that of `run`, where that isn't 0.

  $ printf 'A: OPEN UPDATE\nA: BEGIN-TRANSACTION NO-AUDIT RDS\nA: END-TRANSACTION NO-AUDIT RDS SYNC\nA: CLOSE' | "$examples"/carefully.sh
  1 A DONE
  2 A DONE
  3 A DONE
  SYNCPOINT 6
  4 A DONE
  $ printf 'A: OPEN UPDATE\nA: CREATE\n' | "$examples"/carefully.sh
  1 A DONE
  2 BADLINE 10
  [20]
  $ mkdir ../empty; cd ../empty
  $ echo 'A: OPEN UPDATE' | "$examples"/carefully.sh 2>&1 | head -n 1
  dms: no database
  $ echo 'A: OPEN UPDATE' | "$examples"/carefully.sh 2> /dev/null
  [3]

One that unloads a data set: what it prints is a script that stores the records again.

  $ cd ../db
  $ "$examples"/unload.sh RDS PERSON > ../lines
  $ wc -l < ../lines
  26
  $ sed -n 4p ../lines
  A: PUT PERSON PNO=1, NAME="say ""1"", so", WAGE=-1.50, ACTIVE=NULL, FLAGS=1, STREET=NULL, TOWN="a, b=1"
  $ mkdir ../again; cd ../again
  $ "$DMS" compile < ../schema && "$DMS" initialize
  COMPILED 3 STRUCTURES
  INITIALIZED AT POINT 0
  $ "$examples"/carefully.sh < ../lines | tail -n 1
  26 A DONE
  $ "$examples"/unload.sh RDS PERSON | cmp - ../lines

So a schema is changed: with one item less and one more, in a new folder, by a script of the items that both have.

  $ sed -e 's/FLAGS FIELD(3);/CITY ALPHA(9) INITIALVALUE = "ROME";/' ../schema > ../changed
  $ cd ../db; "$examples"/unload.sh RDS PERSON 'PNO, NAME, WAGE, ACTIVE, HOME' > ../lines
  $ mkdir ../newer; cd ../newer
  $ "$DMS" compile < ../changed && "$DMS" initialize
  COMPILED 3 STRUCTURES
  INITIALIZED AT POINT 0
  $ "$examples"/carefully.sh < ../lines | tail -n 1
  26 A DONE
  $ "$examples"/unload.sh RDS PERSON | sed -n 4p
  A: PUT PERSON PNO=1, NAME="say ""1"", so", WAGE=-1.50, ACTIVE=NULL, CITY="ROME", STREET=NULL, TOWN="a, b=1"
  $ "$examples"/unload.sh RDS PERSON 'PNO, NAME, WAGE, ACTIVE, HOME' | cmp - ../lines

A data set or an item that isn't there, and a folder without a database.

  $ "$examples"/unload.sh RDS PEOPLE
  A: OPEN UPDATE
  [20]
  $ "$examples"/unload.sh RDS PERSON SHOE
  A: OPEN UPDATE
  [20]
  $ cd ../empty; "$examples"/unload.sh RDS PERSON 2> /dev/null
  [3]

One that tries a dump in a scratch folder, where the database is rebuilt from it and each structure walked.

  $ cd ../db; echo 'DUMP TO 1' | "$DMS" utility
  DUMPED 1 AT POINT 6
  $ cksum F*.DMS > ../before
  $ "$examples"/verify.sh 1 RDS PERSON=PERSON-SET
  REBUILT TO POINT 6
  RDS 0
  PERSON 5
  PERSON-SET 5
  $ "$examples"/verify.sh 1 RDS=PERSON
  REBUILT TO POINT 6
  RDS 0
  PERSON 5
  [20]
  $ "$examples"/verify.sh 2 PERSON 2> /dev/null
  [1]
  $ cksum F*.DMS | cmp - ../before
