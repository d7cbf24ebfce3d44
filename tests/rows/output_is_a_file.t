Standard output is one of the folder's database files: the program doesn't begin.

  $ printf 'RDS RESTART DATA SET (PID ALPHA(10););\nD DATA SET (X NUMBER(4););\n' > schema
  $ { cat schema; printf 'SCRIPT\nA: CLOSE\n'; } > script
  $ bytes() { od -An -v -tx1 "$1" | tr -d ' \n'; echo; }
  $ mkdir db && cd db

The shell makes the file, or empties it, before the program runs.

  $ "$DMS" compile < ../schema > F00001.DMS
  dms: output fault
  dms: standard output is a file of a database; print to another place
  [10]
  $ ls
  F00001.DMS
  $ bytes F00001.DMS
  
  $ "$DMS" compile < ../schema
  COMPILED 2 STRUCTURES
  $ bytes F00001.DMS
  01000000003e444d535300010064000a01000200270f000202035244530000000f42400103504944010a0000000000000101440000000f42400101580204000000000000

Where it doesn't empty the file, the description stays; so it does behind a link, another name or another path.

  $ "$DMS" compile < ../schema >> F00001.DMS
  dms: output fault
  dms: standard output is a file of a database; print to another place
  [10]
  $ "$DMS" compile < ../schema 1<> F00001.DMS
  dms: output fault
  dms: standard output is a file of a database; print to another place
  [10]
  $ "$DMS" compile < ../schema >> ../db/F00001.DMS
  dms: output fault
  dms: standard output is a file of a database; print to another place
  [10]
  $ ln -s F00001.DMS link
  $ "$DMS" compile < ../schema >> link
  dms: output fault
  dms: standard output is a file of a database; print to another place
  [10]
  $ ln F00001.DMS name
  $ "$DMS" compile < ../schema >> name
  dms: output fault
  dms: standard output is a file of a database; print to another place
  [10]
  $ "$DMS" try < ../script >> F00001.DMS
  dms: output fault
  dms: standard output is a file of a database; print to another place
  [10]
  $ "$DMS" --help >> F00001.DMS
  dms: output fault
  dms: standard output is a file of a database; print to another place
  [10]
  $ bytes F00001.DMS
  01000000003e444d535300010064000a01000200270f000202035244530000000f42400103504944010a0000000000000101440000000f42400101580204000000000000

The same where the file of the folder is a link itself.

  $ mkdir ../linked && mv F00001.DMS ../linked/text && rm name link
  $ ln -s ../linked/text F00001.DMS
  $ "$DMS" compile < ../schema >> ../linked/text
  dms: output fault
  dms: standard output is a file of a database; print to another place
  [10]
  $ bytes ../linked/text
  01000000003e444d535300010064000a01000200270f000202035244530000000f42400103504944010a0000000000000101440000000f42400101580204000000000000

Standard error is such a file: the line of a fault isn't written.

  $ "$DMS" compile < ../schema 2>> F00001.DMS
  [11]
  $ "$DMS" tri 2>> F00001.DMS
  [1]
  $ bytes F00001.DMS
  01000000003e444d535300010064000a01000200270f000202035244530000000f42400103504944010a0000000000000101440000000f42400101580204000000000000

Any file of a database counts, and no other file.

  $ rm F00001.DMS
  $ "$DMS" compile < ../schema > F10001.DMS
  dms: output fault
  dms: standard output is a file of a database; print to another place
  [10]
  $ "$DMS" compile < ../schema > F1.DMS
  $ cat F1.DMS
  COMPILED 2 STRUCTURES
  $ ls
  F00001.DMS
  F1.DMS
  F10001.DMS

What is no sealed description is written over, also where the name is a link.

  $ mkdir ../over && cd ../over
  $ echo 'a letter to a friend' > letter
  $ ln -s letter F00001.DMS
  $ "$DMS" compile < ../schema
  COMPILED 2 STRUCTURES
  $ bytes letter
  01000000003e444d535300010064000a01000200270f000202035244530000000f42400103504944010a0000000000000101440000000f42400101580204000000000000
