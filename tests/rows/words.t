The words of the command line.

  $ "$DMS" --version
  dms 0.1.0

  $ "$DMS" --help
  usage: dms try < FILE
         dms compile < FILE
         dms initialize [TAG]
         dms run < FILE
         dms utility < FILE
         dms print audit
         dms load SEED N
         dms ship [K] > FILE
         dms COMMAND --help
         dms --help
         dms --version
  
  Commands, each with what it reads from standard input:
  
    try        the text of a schema, a line SCRIPT, and the lines of a script
               Runs the script over a database in memory that begins empty, and
               prints what its lines answer. Touches no file, and keeps nothing.
  
    compile    the text of a schema
               Writes its description to the file F00001.DMS of the current
               folder, where no description is yet.
  
    initialize [TAG]   nothing
               Makes the empty database of the description in F00001.DMS, with
               that tag, a number from 0 to 18446744073709551615, or 0. Audit
               files, dumps and structure files of an old database are cut to
               nothing.
  
    run        the lines of a script
               Opens the database in the current folder, as its last quiet point
               was, also where a program was stopped within it. Prints what the
               lines answer, and closes the database. What stands before a line
               SYNCPOINT that was printed survives any stop. Where standard error
               is a terminal and standard output is none, it shows there every
               second how many lines were answered, and the last SYNCPOINT.
  
    utility    one statement: DUMP, ROLLBACK, REBUILD or RECONSTRUCT
               DUMP TO d opens the database in the current folder, as run does,
               and writes a copy of its blocks, dump d, a number from 1 to 9999,
               to a file of its own: dump 1 to F20001.DMS. A dump that is there
               already is not written over.
               ROLLBACK TO n takes the database back to quiet point n. What came
               after it is void from then on. dms print audit lists the points.
               REBUILD FROM d makes all structure files anew from dump d and the
               audit, whatever they hold, up to the last point; with TO n up to
               point n.
               RECONSTRUCT name ROW r, .. FROM d does so with these rows alone, of
               16 blocks each.
  
    print audit   nothing
               Prints a line for each entry that is sealed in the audit files of
               the current folder. Changes nothing, and needs no right to write.
  
    load SEED N   nothing
               Makes a database of accounts in the current folder, where no
               description is yet, and runs 4 lines and N lines more of a script
               over it: N is a number from 0 to 20000, and the lines are drawn
               from SEED, a number from 0 to 18446744073709551615. Prints how
               many of them were answered how, in seven lines.
  
    ship [K]   nothing
               Prints the sealed audit of the database in the current folder as
               bytes, from audit file K on, a number from 1 to 9999, or 1.
               Changes nothing, and needs no right to write.
  
  Statuses. At one above 0 a line on standard error says why, and behind it may
  stand what helps: the place in the text, what the system said, or what to do.
  
     0  done
     1  bad words
     2  the schema is refused
     3  there is no database
     4  the description is missing, or an audit file or a dump is, or isn't
        sealed, or is one of another database, or the point of a restore can't
        be had
     5  a call on a file failed, or the folder is in use
     6  reading the input failed
     7  memory was refused
     8  the script is too long, or holds too many lines, or the audit is full
     9  a block of an audit file or of a structure file is damaged
    10  printing failed
    11  the description, the database or the dump is there already
    12  the statement is bad
  
  The guide is docs/GUIDE.md in the repository of the program, and examples for
  try are in the folder examples there.

No line of it has more than 80 columns, and each status that the program has stands there.

  $ "$DMS" --help | awk 'length > 80'
  $ "$DMS" --help | grep -cE '^ +[0-9]+  '
  13

So do `-h` and `help`. Behind a command `--help` or `-h` prints the help of that command.

  $ "$DMS" --help > whole
  $ "$DMS" -h | cmp - whole
  $ "$DMS" help | cmp - whole
  $ "$DMS" try --help < /dev/null
  usage: dms try < FILE
  
    try        the text of a schema, a line SCRIPT, and the lines of a script
               Runs the script over a database in memory that begins empty, and
               prints what its lines answer. Touches no file, and keeps nothing.
  
  Statuses: 0, 2, 6, 7, 8 and 10. See dms --help.
  $ "$DMS" print audit --help
  usage: dms print audit
  
    print audit   nothing
               Prints a line for each entry that is sealed in the audit files of
               the current folder. Changes nothing, and needs no right to write.
  
  Statuses: 0, 3, 4, 5, 7, 9 and 10. See dms --help.
  $ for command in try compile initialize run 'print audit'; do
  >   "$DMS" $command --help > one
  >   "$DMS" $command -h | cmp - one
  >   sed '1d' one | grep -v '^Statuses' | grep -vxFf whole
  > done
  [1]
  $ for command in try compile initialize run 'print audit'; do "$DMS" $command --help | awk 'length > 80'; done

Words that are no command.

  $ "$DMS" help try
  dms: bad words
  dms: see dms --help
  [1]

  $ "$DMS" print --help
  dms: bad words
  dms: see dms --help
  dms: usage: dms print audit
  [1]

  $ "$DMS" run -h -h
  dms: bad words
  dms: see dms --help
  dms: usage: dms run < FILE
  [1]


  $ "$DMS"
  dms: bad words
  dms: see dms --help
  [1]

  $ "$DMS" --help try
  dms: bad words
  dms: see dms --help
  [1]

  $ "$DMS" tri
  dms: bad words
  dms: see dms --help
  [1]

  $ "$DMS" Try
  dms: bad words
  dms: see dms --help
  [1]

  $ "$DMS" try try < /dev/null
  dms: bad words
  dms: see dms --help
  dms: usage: dms try < FILE
  [1]

  $ "$DMS" ''
  dms: bad words
  dms: see dms --help
  [1]

A word that is no UTF-8, a long one, and many.

  $ "$DMS" "$(printf 'try\377')" < /dev/null
  dms: bad words
  dms: see dms --help
  [1]

  $ "$DMS" try "$(printf '\200')" < /dev/null
  dms: bad words
  dms: see dms --help
  [1]

  $ "$DMS" "$(head -c 100000 /dev/zero | tr '\0' a)"
  dms: bad words
  dms: see dms --help
  [1]

  $ "$DMS" $(yes try | head -n 10000) < /dev/null
  dms: bad words
  dms: see dms --help
  dms: usage: dms try < FILE
  [1]

The name that the program is started by may be no UTF-8.

  $ ln -s "$DMS" "$(printf 'dms\377')"
  $ "$(printf './dms\377')" --version
  dms 0.1.0

Only standard error has the lines of a fault.

  $ "$DMS" tri 2> /dev/null
  [1]
