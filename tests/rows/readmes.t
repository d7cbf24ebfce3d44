Each crate has a page that says what it means and what is proved of it. The pages name only clauses and types that are there.

  $ "$TESTDIR/../readmes"
  each crate has a page, and each clause that it names is there
