Readers need no right to write, and don't shut each other out.

  $ there=$(mktemp -d) && chmod 755 "$there" && cd "$there"
  $ cp "$DMS" dms && mkdir db && cd db
  $ printf 'AUDIT TRAIL (FILES = 9900);\nRDS RESTART DATA SET (PID ALPHA(10););\nD DATA SET (X NUMBER(4););\n' | ../dms compile
  COMPILED 2 STRUCTURES
  $ ../dms initialize
  INITIALIZED AT POINT 0

A user who may read the files and the folder, and not write them.

  $ chmod 444 F*.DMS && chmod 555 .
  $ alone() { if [ "$(id -u)" = 0 ]; then setpriv --reuid=65534 --regid=65534 --clear-groups "$@"; else "$@"; fi; }
  $ alone ../dms print audit
  1 1 SCHEMA 1 OF 1 LENGTH 62
  1 1 CONTROL 0 NEXT 1
  $ alone ../dms run < /dev/null
  dms: disk fault
  dms: F10001.DMS: Permission denied
  [5]

The folder is read by two at once, and not while one writes.

  $ chmod 755 . && chmod 644 F*.DMS
  $ flock --shared . ../dms print audit
  1 1 SCHEMA 1 OF 1 LENGTH 62
  1 1 CONTROL 0 NEXT 1
  $ flock . ../dms print audit
  dms: the folder is in use
  dms: wait until the other command in this folder has ended
  [5]
  $ flock --shared . ../dms run < /dev/null
  dms: the folder is in use
  dms: wait until the other command in this folder has ended
  [5]
  $ cd / && rm -r "$there"
