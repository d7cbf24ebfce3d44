Schemas that are refused, and at which byte.

  $ "$DMS" try < /dev/null
  dms: schema: no restart data set
  [2]

  $ "$DMS" try <<'END'
  > D DATA SET (X NUMBER(19););
  > END
  dms: schema: number out of range at 22
  [2]
