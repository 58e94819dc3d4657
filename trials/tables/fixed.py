"""Cases that people met, one by one, in both engines: tables in parts, foreign keys, columns of others, triggers and types."""


from trials.tables.cases import ALE_COMES, EITHER, JAM_IS_DEARER, LINES, PRODUCTS, REFUSED, TEA_GOES, Case

PG, LITE = "postgresql", "sqlite"
BOTH = (PG, LITE)
KEYED = {"keys": {"products": [0]}}
PRODUCT = "product text NOT NULL, price bigint NOT NULL"
KEY = "product text NOT NULL PRIMARY KEY, price bigint NOT NULL"


# ---- tables in parts


def in_parts(by, *parts, columns=PRODUCT, table="products"):
    made = [f"CREATE TABLE {table} ({columns}) PARTITION BY {by};"]
    return {table: made + [f"CREATE TABLE {table}_{n} PARTITION OF {table} {part};" for n, part in enumerate(parts)]}


BY_LIST = in_parts("LIST (product)", "FOR VALUES IN ('tea')", "DEFAULT")
BY_RANGE = in_parts("RANGE (price)", "FOR VALUES FROM (MINVALUE) TO (400)", "FOR VALUES FROM (400) TO (MAXVALUE)")
BY_HASH = in_parts("HASH (product)", *(f"FOR VALUES WITH (MODULUS 3, REMAINDER {n})" for n in range(3)))
INHERITED = {"products": [f"CREATE TABLE products ({PRODUCT});", "CREATE TABLE imported () INHERITS (products);"]}
MOVED = ["INSERT INTO imported SELECT * FROM products WHERE product <> 'tea';", "DELETE FROM ONLY products WHERE product <> 'tea';"]
MANY = {"products": [(f"product {n}", 100 + n) for n in range(12)], "lines": LINES}
SOME_GO = {"products": [((f"product {n}", 100 + n), -1) for n in range(4)]}
GROUPS = in_parts("LIST (product)", "FOR VALUES IN ('tea')", "DEFAULT", columns="product text NOT NULL, n bigint NOT NULL, cost bigint NOT NULL", table="by_product")
BY_COST = in_parts(
    "RANGE (cost)", "FOR VALUES FROM (MINVALUE) TO (2000)", "FOR VALUES FROM (2000) TO (MAXVALUE)",
    columns="product text NOT NULL, n bigint NOT NULL, cost bigint NOT NULL", table="by_product",
)
JAM_IS_CHEAPER = {"products": [(("jam", 450), -1), (("jam", 300), 1)]}
SALES = in_parts(
    "LIST (product)", "FOR VALUES IN ('tea')", "DEFAULT",
    columns='id bigint NOT NULL, product text NOT NULL, cost bigint NOT NULL, "#" bigint NOT NULL', table="sales",
)
COUNTED = {"products": [sql.replace("price bigint NOT NULL", 'price bigint NOT NULL, "#" bigint NOT NULL') for sql in BY_LIST["products"]]}

BY_COUNT = in_parts(
    'RANGE ("#")', "FOR VALUES FROM (MINVALUE) TO (2)", "FOR VALUES FROM (2) TO (MAXVALUE)",
    columns='product text NOT NULL, price bigint NOT NULL, "#" bigint NOT NULL',
)
TEA_TWICE = {"products": [(("tea", 300), 1)]}


def partitions():
    return [
        Case("tea leaves a table in parts by list, and jam stays", PG, TEA_GOES, BY_LIST),
        Case("tea leaves a table in parts by range", PG, TEA_GOES, BY_RANGE),
        Case("products leave a table in parts by hash", PG, SOME_GO, BY_HASH, rows=MANY),
        Case("tea leaves a table with an heir", PG, TEA_GOES, INHERITED, MOVED),
        Case("jam leaves the heir of a table", PG, {"products": [(("jam", 450), -1)]}, INHERITED, MOVED),
        Case("tea leaves a counted table in parts", PG, TEA_GOES, COUNTED, counted=("products",)),
        Case("a count changes in a counted table in parts", PG, TEA_TWICE, COUNTED, counted=("products",)),
        Case("a count moves a row to another part", PG, TEA_TWICE, BY_COUNT, counted=("products",)),
        Case("a group of a summary in parts changes", PG, JAM_IS_DEARER, GROUPS),
        Case("a sum moves a group to another part", PG, JAM_IS_CHEAPER, BY_COST),
        Case("a joined view in parts changes", PG, JAM_IS_DEARER, SALES),
        Case("a price moves a row to another part", PG, {"products": [(("tea", 300), -1), (("tea", 500), 1)]}, BY_RANGE),
    ]


# ---- foreign keys

REFERENCES = "CREATE TABLE products ({key});"
ORDERED = "id bigint NOT NULL, product text {null} REFERENCES products (product) {action}"
LEFT_AND_COME = {"products": [(("jam", 450), -1), (("jelly", 450), 1)]}
BOTH_GO = {"products": [(("tea", 300), -1)], "lines": [((1, "tea", 2), -1)]}


def keyed(key=KEY):
    return {"products": [f"CREATE TABLE products ({key});"]}


def referring(action):
    """Lines of the catalogue that refer to products."""
    reference = f"REFERENCES products (product) {action}"
    return {**keyed(), "lines": [f"CREATE TABLE lines (id bigint NOT NULL, product text NOT NULL {reference}, pieces bigint NOT NULL);"]}


def ordered(action, null="NOT NULL", rows="(1, 'tea'), (2, 'jam')"):
    """A table beside the catalogue that refers to products."""
    return ["CREATE TABLE order_lines (" + ORDERED.format(null=null, action=action) + ");", f"INSERT INTO order_lines VALUES {rows};"]


def foreign_keys():
    found = []
    for engine in BOTH:
        found += [
            Case("a price changes under ON DELETE CASCADE", engine, JAM_IS_DEARER, referring("ON DELETE CASCADE"), **KEYED),
            Case("a price changes, and order lines refer to it", engine, JAM_IS_DEARER, keyed(), ordered("ON DELETE CASCADE"), **KEYED),
            Case("a product goes under ON DELETE CASCADE", engine, TEA_GOES, keyed(), ordered("ON DELETE CASCADE"), REFUSED, "refused cascade products"),
            Case("a key changes under ON UPDATE CASCADE", engine, LEFT_AND_COME, keyed(), ordered("ON UPDATE CASCADE ON DELETE CASCADE"),
                 REFUSED, "refused cascade products"),
            Case("a product goes under ON DELETE SET NULL", engine, TEA_GOES, keyed(), ordered("ON DELETE SET NULL", ""), REFUSED, "refused cascade products"),
            Case("a product goes under ON DELETE SET DEFAULT", engine, TEA_GOES, keyed(), ordered("ON DELETE SET DEFAULT",
                 "DEFAULT 'jam'"), REFUSED, "refused cascade products"),
            Case("a product goes that nothing refers to", engine, TEA_GOES, keyed(), ordered("", rows="(2, 'jam')"), **KEYED),
            Case("a product goes before its line, which may be later", engine, BOTH_GO, referring("DEFERRABLE INITIALLY IMMEDIATE"), **KEYED),
            Case("a price changes that NO ACTION refers to", engine, JAM_IS_DEARER, referring(""), **KEYED),
        ]
    keyed_parts = in_parts("LIST (product)", "FOR VALUES IN ('tea')", "DEFAULT", columns=KEY)
    on_part = [sql.replace("REFERENCES products ", "REFERENCES products_0 ") for sql in ordered("ON DELETE CASCADE", rows="(1, 'tea')")]
    jam_refers = [sql.replace("REFERENCES products ", "REFERENCES imported ") for sql in ordered("ON DELETE CASCADE", rows="(2, 'jam')")]
    on_heir = [*MOVED, "ALTER TABLE imported ADD PRIMARY KEY (product);", *jam_refers]
    found += [
        Case("a product goes, and a cascade hangs on its part", PG, TEA_GOES, keyed_parts, on_part, REFUSED, "refused cascade products"),
        Case("a product goes, and a cascade hangs on an heir", PG, {"products": [(("jam", 450), -1)]}, INHERITED, on_heir, REFUSED, "refused cascade products"),
        Case("a price changes, and a cascade hangs on its part", PG, {"products": [(("tea", 300), -1), (("tea", 310), 1)]}, keyed_parts, on_part, **KEYED),
    ]
    found.append(Case("a product goes under a cascade that is switched off", LITE, TEA_GOES, keyed(), ordered("ON DELETE CASCADE"), database="unkeyed"))
    return found


# ---- columns that the catalogue does not have

DESCRIBED = "UPDATE products SET description = CASE product WHEN 'tea' THEN 'green' ELSE 'plum' END;"
BESIDE = {"others": {"products": ["description"]}}


def described(more, key=KEY):
    return keyed(f"{key}, {more}")


def other_columns():
    found = []
    for engine in BOTH:
        own = described("description text")
        unique = {"products": [f"CREATE TABLE products ({PRODUCT}, description text);", "CREATE UNIQUE INDEX by_name ON products (product);"]}
        found += [
            Case("a price changes beside a description", engine, JAM_IS_DEARER, own, [DESCRIBED], **KEYED, **BESIDE),
            Case("a price changes beside a description, with a unique index", engine, JAM_IS_DEARER, unique, [DESCRIBED], **KEYED, **BESIDE),
            Case("a counted price changes beside a description", engine, JAM_IS_DEARER,
                 described('"#" bigint NOT NULL DEFAULT 1, description text'),
                 [DESCRIBED], counted=("products",), **KEYED, **BESIDE),
            Case("a product comes without its description", engine, ALE_COMES, own, [DESCRIBED], REFUSED, "no default"),
            Case("a product comes without what has to be there", engine, ALE_COMES, described("description text NOT NULL DEFAULT ''"), [DESCRIBED], **KEYED, **BESIDE),
            Case("a price changes where no key tells which", engine, JAM_IS_DEARER, described("description text", PRODUCT), [DESCRIBED], REFUSED, "no default"),
            Case("a column is worked out from others", engine, JAM_IS_DEARER, described("twice bigint GENERATED ALWAYS AS (price * 2) STORED"), **KEYED),
            Case("a product comes beside a column that is worked out", engine, ALE_COMES, described("twice bigint GENERATED ALWAYS AS (price * 2) STORED"), **KEYED),
            Case("a price is worked out by the engine", engine, TEA_GOES, PRICED,
                 ["INSERT INTO products (product) VALUES ('tea'), ('jam');"],
                 REFUSED, "products does not fit", rows={"lines": LINES, "products": []}),
        ]
    return found + numbered()


PRICED = {"products": ["CREATE TABLE products (product text NOT NULL, price bigint NOT NULL GENERATED ALWAYS AS (300) STORED);"]}


def numbered():
    """Columns that the engine numbers."""
    beside = f"CREATE TABLE products (row_number bigint GENERATED ALWAYS AS IDENTITY PRIMARY KEY, {PRODUCT});"
    serial = f"CREATE TABLE products (row_number serial, {PRODUCT});"
    lines = {"lines": ["CREATE TABLE lines (id bigint PRIMARY KEY, product text NOT NULL, pieces bigint NOT NULL);"]}
    always, by_default = ([f"ALTER TABLE lines ALTER id ADD GENERATED {how} AS IDENTITY;"] for how in ("ALWAYS", "BY DEFAULT"))
    comes = {"lines": [((7, "tea", 5), 1)]}
    return [
        Case("a product comes beside a number of its own", PG, ALE_COMES, {"products": [beside]}),
        Case("a price changes beside a serial number", PG, JAM_IS_DEARER, {"products": [serial]}),
        Case("a line comes with its number by default", PG, comes, lines, by_default, keys={"lines": [0]}),
        Case("a line comes with a number that is always the engine's", PG, comes, lines, always, EITHER, keys={"lines": [0]}),
    ]


# ---- triggers and rules

ALE_IS_SOLD = {**ALE_COMES, "lines": [((9, "ale", 1), 1)]}


def trigger(when, table, body, each="FOR EACH ROW", kind="TRIGGER"):
    """A trigger of PostgreSQL, whose function has a path of names of its own, since a night has none but the server's."""
    return [
        f"CREATE FUNCTION meddling() RETURNS trigger LANGUAGE plpgsql SET search_path FROM CURRENT AS $$ BEGIN {body} END $$;",
        f"CREATE {kind} meddling {when} ON {table} {each} EXECUTE FUNCTION meddling();",
    ]


def triggers():
    late = trigger("AFTER INSERT OR UPDATE OR DELETE", "products", "DELETE FROM by_product; RETURN NULL;",
                   "DEFERRABLE INITIALLY DEFERRED FOR EACH ROW", "CONSTRAINT TRIGGER")
    audit = ["CREATE TABLE audit (told text);", *trigger("AFTER INSERT OR UPDATE OR DELETE", "products", "INSERT INTO audit VALUES (TG_OP); RETURN NULL;")]
    torn = {"wanted": REFUSED, "word": "refused torn products"}
    return [
        Case("a trigger keeps a row", PG, TEA_GOES, more=trigger("BEFORE DELETE", "products", "RETURN NULL;"), **torn),
        Case("a trigger of a part keeps a row", PG, TEA_GOES, BY_LIST, trigger("BEFORE DELETE", "products_0", "RETURN NULL;"), **torn),
        Case("a trigger keeps a row out", PG, ALE_COMES, more=trigger("BEFORE INSERT", "products", "RETURN NULL;"), **torn),
        Case("a trigger keeps a row as it was", PG, JAM_IS_DEARER, keyed(), trigger("BEFORE UPDATE", "products", "RETURN NULL;"), **torn),
        Case("a trigger changes what comes", PG, ALE_COMES, more=trigger("BEFORE INSERT", "products", "NEW.price := NEW.price + 1; RETURN NEW;"), **torn),
        Case("a trigger changes what is changed", PG, JAM_IS_DEARER, keyed(), trigger("BEFORE UPDATE", "products", "NEW.price := 1; RETURN NEW;"), **torn),
        Case("a trigger puts a second row in", PG, ALE_COMES,
             more=trigger("AFTER INSERT", "products", "INSERT INTO products VALUES ('ale', 220); RETURN NULL;",
                          "FOR EACH ROW WHEN (pg_trigger_depth() = 0)"), **torn),
        Case("a trigger changes a row that was done", PG, {**ALE_COMES, "lines": [((9, "jam", 1), 1)]},
             more=trigger("AFTER INSERT", "lines", "UPDATE products SET price = 1 WHERE product = 'ale'; RETURN NULL;"), **torn),
        Case("a trigger adds a row to a table that was done", PG, {**TEA_GOES, "lines": [((9, "jam", 1), 1)]},
             more=trigger("AFTER INSERT", "lines", "INSERT INTO products VALUES ('rum', 1); RETURN NULL;"), **torn),
        Case("a trigger keeps a group out", PG, ALE_IS_SOLD, more=trigger("BEFORE INSERT", "by_product", "RETURN NULL;"), wanted=REFUSED, word="refused torn by_product"),
        Case("a trigger that waits for the end empties a view", PG, JAM_IS_DEARER, more=late, wanted=REFUSED, word="refused torn by_product"),
        Case("a rule does nothing instead", PG, ALE_COMES, more=["CREATE RULE nothing AS ON INSERT TO products DO INSTEAD NOTHING;"], wanted=REFUSED),
        Case("a trigger keeps a book", PG, JAM_IS_DEARER, keyed(), audit, touched=("public.audit",), **KEYED),
        *stamped(),
        *hidden_rows(),
        *triggers_of_sqlite(torn),
    ]


def stamped():
    """Triggers that write into a column of others."""
    stamp = described("stamp text DEFAULT ''")
    change = {"products": [*JAM_IS_DEARER["products"], *ALE_COMES["products"]]}
    before = trigger("BEFORE INSERT OR UPDATE", "products", "NEW.stamp := TG_OP; RETURN NEW;")
    after = "UPDATE products SET stamp = 'done' WHERE product = NEW.product;"
    return [
        Case("a trigger stamps what comes and changes", PG, change, stamp, before),
        Case("a trigger stamps afterwards", PG, change, stamp, trigger("AFTER INSERT", "products", after + " RETURN NULL;"), EITHER),
        Case("a trigger stamps afterwards", LITE, change, stamp, [f"CREATE TRIGGER meddling AFTER INSERT ON products BEGIN {after} END;"], EITHER),
    ]


def hidden_rows():
    """Rows that whoever runs the night does not see."""
    granted = ["GRANT ALL ON SCHEMA public TO clerk;", "GRANT SELECT, INSERT, UPDATE, DELETE ON ALL TABLES IN SCHEMA public TO clerk;"]
    secured = ["ALTER TABLE products ENABLE ROW LEVEL SECURITY;", "CREATE POLICY cheap ON products USING (price < 400) WITH CHECK (true);"]
    behind = ["ALTER TABLE products RENAME TO all_products;", "CREATE VIEW products AS SELECT * FROM all_products WHERE price < 400;"]
    changes = [each.replace("ON products ", 'ON "products~changes" ').replace("TABLE products ", 'TABLE "products~changes" ') for each in secured]
    return [
        Case("the night is run by someone who owns nothing", PG, JAM_IS_DEARER, keyed(), granted, role="clerk", **KEYED),
        Case("rows are hidden by a policy", PG, ALE_COMES, more=[*granted, *secured], wanted=REFUSED, role="clerk"),
        Case("changes are hidden by a policy", PG, ALE_COMES, more=[*granted, *changes], wanted=REFUSED, role="clerk",
             word="table products~changes does not fit: row-level security hides rows of it"),
        Case("products are a view", PG, ALE_COMES, more=behind, wanted=REFUSED),
    ]


def triggers_of_sqlite(torn):
    def made(when, body):
        return [f"CREATE TRIGGER meddling {when} BEGIN {body} END;"]

    ignored = "SELECT RAISE(IGNORE);"
    return [
        Case("a trigger keeps a row", LITE, TEA_GOES, more=made("BEFORE DELETE ON products", ignored), **torn),
        Case("a trigger keeps a row out", LITE, ALE_COMES, more=made("BEFORE INSERT ON products", ignored), **torn),
        Case("a trigger keeps a row as it was", LITE, JAM_IS_DEARER, keyed(), made("BEFORE UPDATE ON products", ignored), **torn),
        Case("a trigger changes what comes", LITE, ALE_COMES,
             more=made("AFTER INSERT ON products", "UPDATE products SET price = price + 1 WHERE rowid = NEW.rowid;"), **torn),
        Case("a trigger changes a row that was done", LITE, {**ALE_COMES, "lines": [((9, "jam", 1), 1)]},
             more=made("AFTER INSERT ON lines", "UPDATE products SET price = 1 WHERE product = 'ale';"), **torn),
        Case("a trigger adds a row to a table that was done", LITE, {**TEA_GOES, "lines": [((9, "jam", 1), 1)]},
             more=made("AFTER INSERT ON lines", "INSERT INTO products VALUES ('rum', 1);"), **torn),
        Case("a trigger keeps a group out", LITE, ALE_IS_SOLD, more=made("BEFORE INSERT ON by_product", ignored), wanted=REFUSED, word="refused torn by_product"),
        Case("a trigger keeps a book", LITE, JAM_IS_DEARER, keyed(),
             ["CREATE TABLE audit (told text);", *made("AFTER UPDATE ON products", "INSERT INTO audit VALUES ('changed');")],
             touched=("audit",), **KEYED),
        Case("products are a view", LITE, ALE_COMES, more=[
             "ALTER TABLE products RENAME TO all_products;",
             "CREATE VIEW products AS SELECT * FROM all_products WHERE price < 400;",
             *made("INSTEAD OF INSERT ON products", "INSERT INTO all_products VALUES (NEW.product, NEW.price);")], wanted=REFUSED),
    ]


# ---- types


def typed(product="text NOT NULL", price="bigint NOT NULL", end="", rest=""):
    return {"products": [f"CREATE TABLE products (product {product}, price {price}{rest}){end};"]}


def types():
    found = [
        Case(f"a column is {own}", PG, {"products": [((product, price), 1)]}, typed(**{column: f"{own} NOT NULL"}), wanted=REFUSED, word="products does not fit")
        for column, own, product, price in (
            ("product", "varchar(5)", "jam  " + "  ", 1), ("product", "char(5)", "ale", 1), ("product", '"char"', "a", 1),
            ("price", "numeric(6,2)", "ale", 1), ("price", "numeric", "ale", 1), ("price", "real", "ale", 1),
        )
    ]
    changes = '"products~changes" (product varchar(5) NOT NULL, price bigint NOT NULL, "#" bigint NOT NULL)'
    loose = {"products~changes": [f"CREATE TABLE {changes};"]}
    domain = ["CREATE DOMAIN small AS text CHECK (length(VALUE) < 5);", *typed("small NOT NULL")["products"]]
    found += [
        Case("a column is of a domain", PG, TEA_GOES, {"products": domain}, wanted=REFUSED, word="products does not fit"),
        Case("a column of the changes is varchar(5)", PG, {"products": []}, loose, wanted=REFUSED, word="products~changes does not fit"),
        Case("columns are varchar and int4", PG, JAM_IS_DEARER, typed("varchar NOT NULL", "int NOT NULL")),
        Case("columns are int2 and of another order", PG, JAM_IS_DEARER, {"products": ["CREATE TABLE products (price smallint NOT NULL, product text NOT NULL);"]}),
        Case("counts of 32 bits multiply to more", PG, {"lines": [((1, "tea", 2), 70000)]}, COUNTS_OF_32, counted=("products", "lines"),
             rows={"products": [(("tea", 300), 70000)], "lines": [((1, "tea", 2), 70000)]}),
    ]
    return found + types_of_sqlite()


COUNTS_OF_32 = {
    "products": ['CREATE TABLE products (product text NOT NULL, price bigint NOT NULL, "#" int NOT NULL DEFAULT 1);'],
    "lines": ['CREATE TABLE lines (id bigint NOT NULL, product text NOT NULL, pieces bigint NOT NULL, "#" int NOT NULL DEFAULT 1);'],
    "lines~changes": ['CREATE TABLE "lines~changes" (id bigint NOT NULL, product text NOT NULL, pieces bigint NOT NULL, "#" int NOT NULL);',
                      "INSERT INTO \"lines~changes\" VALUES (1, 'tea', 2, 70000);"],
}


def types_of_sqlite():
    lines = {"lines": ["CREATE TABLE lines (id INTEGER PRIMARY KEY, product VARCHAR(20) NOT NULL, pieces INT NOT NULL);"]}
    change = {"lines": [((3, "jam", 4), -1), ((3, "jam", 5), 1), ((4, "tea", 1), 1)]}
    unfit = {"wanted": REFUSED, "word": "products does not fit"}
    return [
        Case("columns are INTEGER PRIMARY KEY and VARCHAR", LITE, change, lines, keys={"lines": [0]}),
        Case("a table is STRICT", LITE, JAM_IS_DEARER, typed("TEXT NOT NULL", "INTEGER NOT NULL", " STRICT")),
        Case("a table is WITHOUT ROWID", LITE, JAM_IS_DEARER, typed("TEXT NOT NULL PRIMARY KEY", end=" WITHOUT ROWID"), wanted=REFUSED),
        Case("a key may be NULL", LITE, TEA_GOES, typed("TEXT PRIMARY KEY"), **unfit),
        Case("a column is REAL", LITE, TEA_GOES, typed(price="REAL NOT NULL"), **unfit),
        Case("a column is NUMERIC", LITE, TEA_GOES, typed(price="NUMERIC NOT NULL"), **unfit),
        Case("a column is BLOB", LITE, TEA_GOES, typed("BLOB NOT NULL"), **unfit),
        Case("a change holds what is no whole number", LITE, {"products": []}, {
            "products~changes": ['CREATE TABLE "products~changes" (product TEXT NOT NULL, price INTEGER NOT NULL, "#" INTEGER NOT NULL);',
                                 """INSERT INTO "products~changes" VALUES ('ale', 2.5, 1);"""]}, wanted=REFUSED),
    ]


# ---- tables of changes

CHANGES = 'product text NOT NULL, price bigint NOT NULL, "#" bigint NOT NULL'
CHANGED = """INSERT INTO "products~changes" (product, price, "#") VALUES ('ale', 220, 1);"""


def changes():
    """Tables of changes of forms of their own, and such that are not emptied."""
    table = '"products~changes"'
    kept = trigger("BEFORE DELETE", table, "RETURN NULL;")
    back = trigger("AFTER DELETE", table, 'INSERT INTO "products~changes" SELECT OLD.*; RETURN NULL;')
    parts = ["CREATE TABLE \"products~changes\" (" + CHANGES + ") PARTITION BY LIST (product);",
             'CREATE TABLE changes_1 PARTITION OF "products~changes" DEFAULT;', CHANGED]
    refused = {"wanted": REFUSED, "word": "refused torn products"}
    found = [
        Case("a trigger keeps the changes", PG, ALE_COMES, more=kept, **refused),
        Case("a trigger puts the changes back", PG, ALE_COMES, more=back, **refused),
        Case("changes stand in parts", PG, ALE_COMES, {"products~changes": parts}),
        Case("a trigger keeps the changes", LITE, ALE_COMES, more=[f"CREATE TRIGGER meddling BEFORE DELETE ON {table} BEGIN SELECT RAISE(IGNORE); END;"], **refused),
        Case("a trigger puts the changes back", LITE, ALE_COMES,
             more=[f"CREATE TRIGGER meddling AFTER DELETE ON {table} BEGIN INSERT INTO {table} VALUES (OLD.product, OLD.price, 1); END;"], **refused),
    ]
    for engine in BOTH:
        more = [f"CREATE TABLE {table} (who text DEFAULT 'me', {CHANGES}, told text);", CHANGED]
        key = [f'CREATE TABLE products ({PRODUCT}, "#" bigint NOT NULL DEFAULT 1, PRIMARY KEY (product, price, "#"));']
        found += [
            Case("changes have columns of others", engine, ALE_COMES, {"products~changes": more}),
            Case("counts belong to the key", engine, {"products": [(("tea", 300), 1), (("jam", 450), -1)]}, {"products": key}, counted=("products",)),
        ]
    return found


# ---- summaries and their indexes

BY_TWO = """
[[view]]
name = "lines"
columns = ["shop", "day", "pieces"]
[[view]]
name = "sums"
over = ["lines"]
group = [["shop", "lines.shop"], ["day", "lines.day"]]
count = "n"
sum = [["pieces", "lines.pieces"]]
"""
SUMS = "shop bigint NOT NULL, day bigint NOT NULL, n bigint NOT NULL, pieces bigint NOT NULL, UNIQUE (shop, day)"
GROUPS_CHANGE = {"products": [(("ale", 220), 1)], "lines": [((1, "tea", 2), -1), ((4, "jam", 2), 1), ((5, "ale", 3), 1)]}
JAM_LEAVES = {"lines": [((2, "jam", 1), -1), ((3, "jam", 4), -1)]}


def by_product(more, *after):
    return {"by_product": [f"CREATE TABLE by_product (product text NOT NULL, n bigint NOT NULL, cost bigint NOT NULL, {more});", *after]}


def summaries():
    """Summaries whose tables have unique indexes of all kinds: a group has to leave before another one comes that an index does not let in
    beside it, and an index that has a sum says nothing about how often a group stands there."""
    twice = ["UPDATE by_product SET n = 1, cost = 450 WHERE product = 'jam';", "INSERT INTO by_product VALUES ('jam', 1, 1800);"]
    few = ["UPDATE by_product SET n = 1 WHERE product = 'jam';"]
    day = {"catalogue": BY_TWO, "rows": {"lines": [(1, 1, 5), (2, 2, 6)]}}
    next_day = {"lines": [((1, 1, 5), -1), ((1, 3, 5), 1)]}
    constraints = {"a group": "UNIQUE (shop)", "a sum": "UNIQUE (pieces)", "a group beside the other": "UNIQUE (shop) INCLUDE (day)",
                   "what an exclusion keeps out": "EXCLUDE USING btree (shop WITH =)"}
    partial = ["CREATE UNIQUE INDEX one_day ON sums (shop) WHERE n > 0;"]
    return [
        *(Case(f"a group stands twice, and {told} is unique", PG, JAM_IS_DEARER, by_product(f"UNIQUE ({unique})"), twice, REFUSED,
               "a group stands in it twice") for told, unique in (("it with its sum", "product, cost"), ("a sum", "cost"))),
        *(Case(f"a group comes before another one leaves, and {told} is unique", PG, next_day, {"sums": [f"CREATE TABLE sums ({SUMS}, {more});"]}, **day)
          for told, more in constraints.items()),
        Case("a group comes before another one leaves, and some are unique", PG, next_day, {"sums": [f"CREATE TABLE sums ({SUMS});", *partial]}, **day),
        *joined_views(),
        *groups(),
        Case("more rows leave than a group has, and a check wants some", PG, JAM_LEAVES, by_product("UNIQUE (product), CHECK (n > 0)"), few, REFUSED,
             "refused absent by_product"),
    ]


FAR = 2**62 + 1
FAR_LINES = {"lines": [((1, 1, 7), 1), ((2, 2, FAR), 2), ((2, 2, -FAR), 2), ((2, 2, 5), 1)]}
FAR_LEAVE = {"lines": [((1, 1, 8), 1), ((2, 2, FAR), -2), ((2, 2, -FAR), -2)]}


def groups():
    """Groups that a unique index finds, whose change is put in one statement, and what makes it be put apart."""
    beside = {"keys": {"by_product": [0]}, "others": {"by_product": ["note"]}}
    noted = by_product("note text, UNIQUE (product)")
    one = by_product("UNIQUE (product)")
    both = by_product("UNIQUE (product), UNIQUE (product, cost)")
    held = ["CREATE TABLE held (product text REFERENCES by_product (product) ON DELETE CASCADE);", "INSERT INTO held VALUES ('jam');"]
    told = ["CREATE TABLE told (product text, cost bigint, FOREIGN KEY (product, cost) REFERENCES by_product (product, cost) ON UPDATE CASCADE);",
            "INSERT INTO told VALUES ('jam', 2250);"]
    parts = {"by_product": [GROUPS["by_product"][0].replace("cost bigint NOT NULL", "cost bigint NOT NULL, UNIQUE (product)"), *GROUPS["by_product"][1:]]}
    narrow = {"sums": [f"CREATE TABLE sums ({SUMS.replace('pieces bigint', 'pieces smallint')});"]}
    two = {"catalogue": BY_TWO, "counted": ("lines",)}
    return [
        *(Case(f"a group leaves, one changes and one comes {where}", PG, GROUPS_CHANGE, own) for where, own in (("", one), ("in parts", parts))),
        Case("a product of numbers leaves 64 bits, and the sum does not", PG, FAR_LEAVE, {"sums": [f"CREATE TABLE sums ({SUMS});"]}, rows=FAR_LINES, **two),
        Case("a sum leaves its column of 16 bits", PG, {"lines": [((1, 1, 32000), 1), ((2, 2, 1), 1)]}, narrow, wanted=REFUSED,
             word="refused large sums: a number does not fit its column", rows={"lines": [(1, 1, 800), (2, 2, 6)]}, **two),
        Case("a group changes beside a note", PG, JAM_IS_DEARER, noted, ["UPDATE by_product SET note = 'of ' || product;"], **beside),
        Case("a group comes without its note", PG, GROUPS_CHANGE, noted, wanted=REFUSED, word="no default"),
        Case("a group changes under ON DELETE CASCADE", PG, JAM_IS_DEARER, one, held),
        Case("a group goes under ON DELETE CASCADE", PG, JAM_LEAVES, one, held, REFUSED, "refused cascade by_product"),
        Case("a sum changes under ON UPDATE CASCADE", PG, JAM_IS_DEARER, both, told, REFUSED, "refused cascade by_product"),
    ]


SOLD = 'id bigint NOT NULL, product text NOT NULL, cost bigint NOT NULL, "#" bigint NOT NULL DEFAULT 1, note text, UNIQUE (id)'
NOTED = {"more": ["UPDATE sales SET note = 'of ' || id;"], "keys": {"sales": [0]}, "others": {"sales": ["note"]}}


def sold(more="", *after):
    return {"sales": [f"CREATE TABLE sales ({SOLD}{more});", *after]}


def joined_views():
    """Joined views whose tables have a key by which a row stays the same row, and two rows of which change places under another unique index."""
    swapped = {"lines": [((1, "tea", 2), -1), ((2, "jam", 1), -1), ((1, "jam", 2), 1), ((2, "tea", 1), 1)]}
    two = {"rows": {"products": PRODUCTS, "lines": LINES[:2]}}
    others = {"a column": ", UNIQUE (product)", "what an exclusion keeps out": ", EXCLUDE USING btree (product WITH =)"}
    return [
        Case("a cost changes beside a note of a joined view", PG, JAM_IS_DEARER, sold(), **NOTED),
        Case("a cost changes beside a note of a joined view, and the key with a column is unique", PG, JAM_IS_DEARER, sold(", UNIQUE (product, id)"), **NOTED),
        *(Case(f"rows of a joined view change places, and {told} is unique", PG, swapped, sold(more, "ALTER TABLE sales DROP note;"), **two)
          for told, more in others.items()),
    ]


# ---- tables with heirs and keys, and many changes

HEIR = ["CREATE TABLE imported () INHERITS (products);"]
JAM_TWICE = {"products": [("tea", 300), (("jam", 450), 2)], "lines": LINES}
ONE_MOVES = ["INSERT INTO imported SELECT * FROM products WHERE product = 'jam' LIMIT 1;",
             "DELETE FROM ONLY products WHERE ctid = (SELECT min(ctid) FROM ONLY products WHERE product = 'jam');",
             "ALTER TABLE products ADD PRIMARY KEY (product);"]
HUNDREDS = {"products": [(f"product {n}", 100 + n) for n in range(900)], "lines": [(n, f"product {n}", 2) for n in range(900)]}
HUNDREDS_CHANGE = {"products": [each for n in range(600) for each in (((f"product {n}", 100 + n), -1), ((f"product {n}", 101 + n), 1))]}


def heirs():
    """An index of a table does not cover its heirs: what has its key may stand in one of them, too."""
    described_heir = {"products": [*described("description text")["products"], *HEIR]}
    return [
        Case("a price changes beside a description of an heir", PG, JAM_IS_DEARER, described_heir, [DESCRIBED, *MOVED], **KEYED, **BESIDE),
        Case("one of two products leaves, of which an heir has one", PG, {"products": [(("jam", 450), -1)]}, INHERITED, ONE_MOVES, rows=JAM_TWICE),
        Case("both of two products leave, of which an heir has one", PG, {"products": [(("jam", 450), -2)]}, INHERITED, ONE_MOVES, rows=JAM_TWICE),
        Case("one of two products gets another price, of which an heir has one", PG, JAM_IS_DEARER, INHERITED, ONE_MOVES, rows=JAM_TWICE),
        Case("hundreds of prices change", PG, HUNDREDS_CHANGE, keyed(), rows=HUNDREDS, **KEYED),
        Case("hundreds of prices change where no index finds them", PG, HUNDREDS_CHANGE, rows=HUNDREDS),
    ]


def cases():
    return [*heirs(), *changes(), *partitions(), *foreign_keys(), *other_columns(), *triggers(), *types(), *summaries()]
