Too few files may be open: the command fails, and can be run again.

  $ printf 'RDS RESTART DATA SET (PID ALPHA(10););\n' > schema
  $ bash -c 'ulimit -n 4; exec "$DMS" compile' < schema
  dms: disk fault
  dms: the folder: Too many open files
  [5]
  $ "$DMS" compile < schema
  COMPILED 1 STRUCTURES
  $ cksum < F00001.DMS > before
  $ bash -c 'ulimit -n 4; exec "$DMS" initialize'
  dms: disk fault
  dms: the folder: Too many open files
  [5]
  $ cksum < F00001.DMS | cmp - before
  $ "$DMS" initialize
  INITIALIZED AT POINT 0
