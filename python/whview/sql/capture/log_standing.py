"""What may be otherwise than it was where tables are captured from the log."""

# What tells whether a part, or its schema, has had another name: its rows are told by that alone. The type of its rows is called as it is.
STAMP = (
    "(SELECT concat_ws({comma}, y.xmin, n.xmin) FROM pg_class AS k JOIN pg_type AS y ON y.oid = k.reltype JOIN pg_namespace AS n ON n.oid = k.relnamespace"
    " WHERE k.oid = {part})"
)
# Whether the log tells rows of a part k that change or leave by a key at least: by its primary key, which no row breaks for a moment, or whole.
IDENTIFIED = (
    "(k.relreplident = {whole} OR k.relreplident = {default} AND EXISTS (SELECT 1 FROM pg_index AS i WHERE i.indrelid = k.oid AND i.indisprimary AND i.indisvalid"
    " AND i.indimmediate AND i.indnkeyatts = cardinality({key}) AND NOT EXISTS (SELECT 1 FROM generate_series(0, i.indnkeyatts - 1) AS g JOIN pg_attribute AS a"
    " ON a.attrelid = i.indrelid AND a.attnum = i.indkey[g] WHERE a.attname <> ALL ({key}))))"
)
KEY_OF_VIEW = "ARRAY(SELECT c.name::name FROM {columns} AS c WHERE c.view = b.view AND c.is_key)"
OF_LOG = (
    ("SELECT format({told}, b.view, format({why}, b.relation::regclass)) FROM below AS b WHERE NOT EXISTS (SELECT 1 FROM {noted} AS p WHERE p.view = b.view"
     " AND p.part = b.relation)", "%s came to it, and its rows are not known"),
    ("SELECT format({told}, p.view, format({why}, p.name)) FROM {noted} AS p JOIN sources AS w ON w.view = p.view WHERE p.triggers IS DISTINCT FROM "
     + STAMP.replace("{part}", "p.part"), "%s or its schema had another name meanwhile, or got another owner or other rights"),
    ("SELECT format({told}, b.view, format({why}, b.relation::regclass)) FROM below AS b JOIN {log} AS o ON o.view = b.view JOIN pg_class AS k ON k.oid = b.relation"
     " AND k.relkind = {ordinary} WHERE NOT CASE o.way WHEN {by_key} THEN " + IDENTIFIED.replace("{key}", KEY_OF_VIEW) + " ELSE k.relreplident = {whole} END",
     "the rows of %s are not logged as they were (REPLICA IDENTITY)"),
)
# Of rows that are told whole a column that is not told is NULL, so that none may have had another name.
OF_WHOLE = (
    "SELECT format({told}, p.view, format({why}, p.name)) FROM {noted} AS p JOIN sources AS w ON w.view = p.view JOIN {log} AS o ON o.view = p.view"
    " WHERE o.way <> {by_key} AND p.attributes <> ", "columns of %s were altered",
)
