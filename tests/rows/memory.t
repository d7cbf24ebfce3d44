Memory stays refused: so many words don't find room in the ten million bytes that the program may have. The line needs none, and
where it can't be written the status is the same.

  $ words() { yes try | head -n 120000 | xargs -s 1900000 -n 120000 sh -c "$1" sh; }
  $ words 'prlimit --as=10000000 "$DMS" "$@"; echo $?'
  dms: no memory
  7
  $ words 'prlimit --as=10000000 "$DMS" "$@" 2> /dev/full; echo $?'
  7
  $ words 'prlimit --as=10000000 "$DMS" "$@" 2>&-; echo $?'
  7

With memory enough they are bad words, and with fewer words so little memory is enough.

  $ words '"$DMS" "$@"; echo $?'
  dms: bad words
  dms: see dms --help
  dms: usage: dms try < FILE
  1
  $ prlimit --as=10000000 "$DMS" try try < /dev/null
  dms: bad words
  dms: see dms --help
  dms: usage: dms try < FILE
  [1]
