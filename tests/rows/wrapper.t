The wrapper at the top of the repository, over a toolchain that only says what it is asked for.

  $ mkdir -p top/crates/low/src top/crates/middle/src top/crates/dms/src bin
  $ cp "$TESTDIR"/../../dms top/
  $ printf '# a comment\nmiddle: low std\nlow:\nother: low\ndms: middle low\n' > top/crates.txt
  $ cat > bin/rt <<'END'
  > #!/bin/sh
  > echo "rt: $(basename "$PWD"): $*" >&2
  > case "$1" in
  >     try) cat; echo "ran $3"; echo 'checked: ended status=7' >&2; echo 'run=ended status=7 runners=1 proved=no' >&2; exit 7 ;;
  >     lib) while [ -n "$SLOW" ] && [ -e "$SLOW" ]; do sleep 0.1; done; [ ! -e ../../refuse ] ;;
  >     run) mkdir -p out && printf '#!/bin/sh\necho "program $*"\n' > out/dms && chmod +x out/dms ;;
  > esac
  > END
  $ chmod +x bin/rt
  $ PATH="$PWD/bin:$PATH"

Where the program isn't built, what needs no file is run without proof. The status is the program's own.

  $ echo input | top/dms try
  dms: this run is not proved; ./dms build builds the proved program, in some two and a half hours of processor time
  input
  ran try
  rt: dms: try -- try
  [7]
  $ echo input | top/dms --version
  dms: this run is not proved; ./dms build builds the proved program, in some two and a half hours of processor time
  ran --version
  rt: dms: try -- --version
  [7]
  $ top/dms run --help < /dev/null
  dms: this run is not proved; ./dms build builds the proved program, in some two and a half hours of processor time
  ran run
  rt: dms: try -- run --help
  [7]

Words that are no command are refused at once, with the lines and the status that the program has for them, and nothing is built.

  $ for words in '' tri version -v --hlep 'help try' 'try --hepl' 'try file' 'run file' 'initialize x' 'initialize 18446744073709551616' 'print' 'print audit x' 'load 1' 'load 1 20001' 'ship 0' 'ship 10000' 'build x'; do
  >   top/dms $words < /dev/null; echo $?
  > done 2>&1 | sort | uniq -c
       18 1
       18 dms: bad words
       18 dms: see dms --help
  $ top/dms 'print audit'
  dms: bad words
  dms: see dms --help
  [1]
  $ ls top/crates/dms
  src

Any other command builds first, crate by crate, and then runs the program.

  $ top/dms run < /dev/null
  dms: building the program first, in some two and a half hours of processor time
  dms: proving crate 1 of 3, low
  dms: proving crate 2 of 3, middle
  dms: proving crate 3 of 3, dms
  program run
  $ top/dms try
  program try
  $ top/dms build
  dms: the program is built: crates/dms/out/dms

Commands with numbers are commands.

  $ for words in 'print audit' 'initialize 0' 'initialize 18446744073709551615' 'load 007 20000' 'ship' 'ship 09999'; do
  >   rm -r top/crates/dms/out; top/dms $words 2> said; cat said | head -n 1
  > done
  program print audit
  dms: building the program first, in some two and a half hours of processor time
  program initialize 0
  dms: building the program first, in some two and a half hours of processor time
  program initialize 18446744073709551615
  dms: building the program first, in some two and a half hours of processor time
  program load 007 20000
  dms: building the program first, in some two and a half hours of processor time
  program ship
  dms: building the program first, in some two and a half hours of processor time
  program ship 09999
  dms: building the program first, in some two and a half hours of processor time

Two commands at once: one builds, and the other waits for that and builds nothing. Here the build waits until the second one has said so.

  $ rm -r top/crates/dms/out
  $ touch slow; export SLOW="$PWD/slow"
  $ top/dms run 2> first > first_out < /dev/null &
  $ for turn in $(seq 600); do grep -q 'crate 1 ' first 2> /dev/null && break; sleep 0.1; done
  $ top/dms utility 2> second > second_out < /dev/null &
  $ for turn in $(seq 600); do grep -q waiting second 2> /dev/null && break; sleep 0.1; done
  $ rm slow; wait
  $ cat first first_out
  dms: building the program first, in some two and a half hours of processor time
  dms: proving crate 1 of 3, low
  dms: proving crate 2 of 3, middle
  dms: proving crate 3 of 3, dms
  program run
  $ cat second second_out
  dms: building the program first, in some two and a half hours of processor time
  dms: another build is at work; waiting for it
  program utility

A source that is newer: what needs no file is run without proof again. A crate that isn't proved is status 126.

  $ touch -d 'next year' top/crates/low/src/lib.rt
  $ top/dms --help
  dms: this run is not proved; ./dms build builds the proved program, in some two and a half hours of processor time
  ran --help
  rt: dms: try -- --help
  [7]
  $ touch top/refuse
  $ top/dms build
  dms: building the program first, in some two and a half hours of processor time
  dms: proving crate 1 of 3, low
  rt: low: lib
  dms: the program could not be built
  [126]

Without the toolchain, one line.

  $ rm bin/rt
  $ for tool in bash sh dirname readlink find cat; do ln -s "$(command -v $tool)" bin/; done
  $ PATH="$PWD/bin" top/dms try < /dev/null
  dms: the command rt of the Rattle toolchain isn't found, and the program isn't built
  [126]
