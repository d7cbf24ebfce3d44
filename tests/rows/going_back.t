Going back to a point, and restoring from a dump.

  $ mkdir db && cd db
  $ "$DMS" compile <<'END'
  > RDS RESTART DATA SET (PID ALPHA(10););
  > D DATA SET (X NUMBER(4););
  > END
  COMPILED 2 STRUCTURES
  $ "$DMS" initialize
  INITIALIZED AT POINT 0
  $ cd ..
  $ store() { { echo 'A: OPEN UPDATE'; for x in $(seq $1 $2); do printf 'A: BEGIN-TRANSACTION NO-AUDIT RDS\nA: CREATE D\nA: PUT D X = %d\nA: STORE D\nA: END-TRANSACTION NO-AUDIT RDS\n' $x; done; } | "$DMS" run | tail -n 1; }
  $ utility() { echo "$1" | "$DMS" utility; }
  $ newest() { printf 'A: OPEN INQUIRY\nA: FIND LAST D\nA: GET D\n' | "$DMS" run | tail -n 1; }
  $ last() { "$DMS" print audit | tail -n 1 | cut -d' ' -f3-; }

Five transactions that store X = 1 to 5, a dump, two more, another dump, and five more.

  $ cd db
  $ store 1 5
  26 A DONE
  $ utility 'DUMP TO 1'
  DUMPED 1 AT POINT 5
  $ store 6 7
  11 A DONE
  $ utility 'DUMP TO 2'
  DUMPED 2 AT POINT 7
  $ store 8 12
  26 A DONE
  $ newest
  3 A DONE X=12
  $ cd .. && cp -r db kept

A rebuild from a dump, of structure files in which nothing is left. It doesn't go to a point below that of the dump.

  $ rm -rf db && cp -r kept db && cd db
  $ for file in F3*.DMS; do head -c $(stat -c %s $file) /dev/zero | tr '\0' '\377' > ../ones; cp ../ones $file; done
  $ cksum F*.DMS > ../before
  $ utility 'REBUILD FROM 1 TO 4'
  dms: dump 1 is at point 5
  dms: name a point from 5 on, or another dump
  [4]
  $ cksum F*.DMS | cmp - ../before
  $ utility 'REBUILD FROM 1 TO 9'
  REBUILT TO POINT 9
  $ newest
  3 A DONE X=9
  $ utility 'DUMP TO 1'
  dms: exists already
  dms: that dump is there; name another number, or remove its file first
  [11]
  $ cd ..

So it is where they are gone, or cut, or those of another time; and without a point it goes to the last one.

  $ for harm in 'rm F3*.DMS' 'truncate -s 100 F30002.DMS' 'truncate -s 0 F30002.DMS' 'echo other > F30002.DMS'; do
  >   rm -rf db; cp -r kept db; cd db
  >   eval "$harm"
  >   utility 'REBUILD FROM 1'
  >   newest
  >   cd ..
  > done | sort | uniq -c
        4 3 A DONE X=12
        4 REBUILT TO POINT 12

A statement may have a semicolon, blanks and comments, and small letters.

  $ rm -rf db && cp -r kept db && cd db
  $ printf 'rebuild %% all\n from 0002 to 07 ;\n' | "$DMS" utility
  REBUILT TO POINT 7
  $ printf 'rollback\tto 6 %%' | "$DMS" utility
  ROLLED BACK TO POINT 6
  $ newest
  3 A DONE X=6
  $ cd ..

A rollback needs no dump. What came after its point is void: its number isn't given again, and no statement goes there.

  $ rm -rf db && cp -r kept db && cd db
  $ rm F20001.DMS
  $ utility 'ROLLBACK TO 3'
  ROLLED BACK TO POINT 3
  $ newest
  3 A DONE X=3
  $ last
  CONTROL 3 NEXT 13
  $ cksum F*.DMS > ../before
  $ utility 'ROLLBACK TO 7'
  dms: point 7 voided
  dms: name another point or dump; dms print audit lists the points
  [4]
  $ utility 'REBUILD FROM 2'
  dms: point 7 voided
  dms: name another point or dump; dms print audit lists the points
  [4]
  $ utility 'ROLLBACK TO 13'
  dms: no such point 13
  dms: name another point or dump; dms print audit lists the points
  [4]
  $ utility 'REBUILD FROM 9 TO 99'
  dms: no such point 99
  dms: name another point or dump; dms print audit lists the points
  [4]
  $ utility 'REBUILD FROM 1'
  dms: dump 1 missing
  dms: put F20001.DMS back, as it was, or name another dump
  [4]
  $ cksum F*.DMS | cmp - ../before
  $ store 40 40
  6 A DONE
  $ last
  CONTROL 13 NEXT 14
  $ newest
  3 A DONE X=40
  $ cd ..

A rollback to the last point, and to the first one.

  $ rm -rf db && cp -r kept db && cd db
  $ utility 'ROLLBACK TO 12'
  ROLLED BACK TO POINT 12
  $ newest
  3 A DONE X=12
  $ utility 'ROLLBACK TO 0'
  ROLLED BACK TO POINT 0
  $ newest
  3 A EXCEPTION NORECORD D
  $ cd ..

A rollback that is stopped behind the write of its Begin goes on in the next run. A file may not grow beyond so many KiB here, and the system ends the rollback at the write that would pass
that: with room for one block of the audit the Begin is there, and the block behind it isn't. The block of D was written then; it may be as it was, too, or half of it.

  $ blocks() { echo $((($(stat -c %s F10001.DMS) + 4095) / 4096)); }
  $ upto() { (bash -c "ulimit -c 0; ulimit -f $(($1 * 4)); echo '$2' | \"\$DMS\" utility" > ../out; echo "status $?") 2> /dev/null; }
  $ stopped() { rm -rf db; cp -r kept db; cd db; upto $(($(blocks) + 1)) 'ROLLBACK TO 3'; cat ../out; last; eval "$1"; "$DMS" run < /dev/null; newest; last; cd ..; }
  $ for harm in : 'cp ../kept/F30002.DMS .' 'printf "%500s" x | dd of=F30002.DMS conv=notrunc status=none'; do stopped "$harm"; done | uniq -c
        1 status 153
        1 BEGIN 3 ROLLBACK
        1 3 A DONE X=3
        1 CONTROL 3 NEXT 13
        1 status 153
        1 BEGIN 3 ROLLBACK
        1 3 A DONE X=3
        1 CONTROL 3 NEXT 13
        1 status 153
        1 BEGIN 3 ROLLBACK
        1 3 A DONE X=3
        1 CONTROL 3 NEXT 13

So does another statement, which goes on from there: a rollback finishes the one that is pending, and then does its own.

  $ rm -rf db; cp -r kept db; cd db; upto $(($(blocks) + 1)) 'ROLLBACK TO 3'; last
  status 153
  BEGIN 3 ROLLBACK
  $ cksum F*.DMS > ../before
  $ utility 'ROLLBACK TO 5'
  dms: point 5 voided
  dms: name another point or dump; dms print audit lists the points
  [4]
  $ utility 'REBUILD FROM 1'
  dms: point 5 voided
  dms: name another point or dump; dms print audit lists the points
  [4]
  $ cksum F*.DMS | cmp - ../before
  $ utility 'ROLLBACK TO 2'
  ROLLED BACK TO POINT 2
  $ newest
  3 A DONE X=2
  $ last
  CONTROL 2 NEXT 13
  $ cd ..

A rebuild that is stopped goes on in the next run, by its dump, whatever stands in the structure files. It may also be begun anew: the last point is that of the Begin then.

  $ begun() { rm -rf db; cp -r kept db; cd db; rm F3*.DMS; upto $(($(blocks) + 1)) 'REBUILD FROM 1 TO 9'; last; rm -f F3*.DMS; }
  $ begun
  status 153
  BEGIN 9 REBUILD 1
  $ mv F20001.DMS ..
  $ cksum F*.DMS > ../before
  $ "$DMS" run < /dev/null
  dms: dump 1 missing
  dms: put F20001.DMS back, as it was
  [4]
  $ cksum F*.DMS | cmp - ../before
  $ mv ../F20001.DMS .
  $ "$DMS" run < /dev/null
  $ newest
  3 A DONE X=9
  $ last
  CONTROL 9 NEXT 13
  $ cd ..; begun
  status 153
  BEGIN 9 REBUILD 1
  $ utility 'REBUILD FROM 1 TO 10'
  dms: point 10 voided
  dms: name another point or dump; dms print audit lists the points
  [4]
  $ utility 'REBUILD FROM 2'
  REBUILT TO POINT 9
  $ newest
  3 A DONE X=9
  $ cd ..
