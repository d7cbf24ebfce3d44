The man page is made of the help.

  $ "$TESTDIR"/../manpage "$DMS" | diff - "$TESTDIR"/../../docs/dms.1

Where man is there it reads the page with no complaint.

  $ command -v man > /dev/null || exit 80
  $ MANWIDTH=80 man --warnings -l "$TESTDIR"/../../docs/dms.1 2>&1 > /dev/null
  $ MANWIDTH=80 man -l "$TESTDIR"/../../docs/dms.1 | col -b | grep -A 3 '^SYNOPSIS'
  SYNOPSIS
         dms try < FILE
         dms compile < FILE
         dms initialize [TAG]
