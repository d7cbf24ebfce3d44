What stands under the name of a database file, and is no regular file of its own, is refused at its first call, and nothing waits for it.

  $ mkdir db && cd db
  $ printf 'RDS RESTART DATA SET (PID ALPHA(10););\nD DATA SET (X NUMBER(4););\n' > ../schema
  $ "$DMS" compile < ../schema
  COMPILED 2 STRUCTURES
  $ "$DMS" initialize
  INITIALIZED AT POINT 0
  $ "$DMS" run < /dev/null
  $ mv F10001.DMS kept; mkfifo F10001.DMS
  $ timeout 60 "$DMS" print audit
  dms: disk fault
  dms: F10001.DMS: not a regular file
  [5]
  $ rm F10001.DMS; mkdir F10001.DMS
  $ "$DMS" run < /dev/null
  dms: disk fault
  dms: F10001.DMS: not a regular file
  [5]
  $ rmdir F10001.DMS; mv kept F10001.DMS
  $ mkdir ../pipe && cd ../pipe && mkfifo F00001.DMS
  $ timeout 60 "$DMS" compile < ../schema
  dms: disk fault
  dms: F00001.DMS: not a regular file
  [5]

A copy by hard links is no copy: what is written in one is written in the other. Both folders are refused while both are there, and no file changes.

  $ cd ../db; cksum F*.DMS > ../before
  $ cp -al . ../copy
  $ cd ../copy; "$DMS" run < /dev/null
  dms: disk fault
  dms: F10001.DMS: the file has another name
  [5]
  $ cd ../db; "$DMS" print audit
  dms: disk fault
  dms: F00001.DMS: the file has another name
  [5]
  $ cksum F*.DMS | cmp - ../before
  $ rm -r ../copy; "$DMS" run < /dev/null

A file may be a symbolic link to one of its own, say on another disk.

  $ mkdir ../disk; mv F10001.DMS ../disk/; ln -s ../disk/F10001.DMS F10001.DMS
  $ "$DMS" run < /dev/null
  $ "$DMS" print audit | tail -n 1 | cut -d' ' -f3-
  CONTROL 0 NEXT 1

But no two names may lead to one file.

  $ ln -s F10001.DMS F10002.DMS
  $ "$DMS" run < /dev/null
  dms: disk fault
  dms: F10002.DMS: the file has another name
  [5]
  $ rm F10002.DMS

A link that leads to no file is named.

  $ ln -s ../nowhere F10002.DMS
  $ "$DMS" print audit > /dev/null
  $ rm F10002.DMS; ln -s F10002.DMS F10002.DMS
  $ "$DMS" print audit
  dms: disk fault
  dms: the folder: Too many levels of symbolic links
  dms: F10002.DMS is a link that leads to no file
  [5]
