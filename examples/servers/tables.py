"""The tables of the trials, their rows, and the changes that are undone. The seed is fixed: each run makes the same."""

import random

from columns import FAMILIES, OF_MYSQL_ALONE, UTF8, binary, document, integer, string, timestamp

SEED = 20261126
ROWS = 60
BIG_ROWS = 300
# tables that both servers have, those that MySQL alone has, and those that one transaction with others may not change
# where GTIDs are on
BOTH, MYSQL_ONLY, NO_GTIDS, ARIA = "both", "mysql`only", "no_gtids", "aria"


def name_of(*parts):
    return ".".join("`" + part.replace("`", "``") + "`" for part in parts)


class Table:
    """A table with the column id and some more. A column without a maker has values of its own."""

    def __init__(self, schema, name, columns, keys="PRIMARY KEY (id)", options="ENGINE=InnoDB", rows=ROWS, names=None):
        self.schema, self.table, self.columns, self.rows = schema, name, columns, rows
        self.name = name_of(schema, name)
        self.names = [name_of(text) for text in names or [f"c{number}" for number in range(1, len(columns) + 1)]]
        self.made = [(column, make) for column, (_, make) in zip(self.names, columns) if make]
        lines = ["id INT NOT NULL", *(f"{column} {kind}" for column, (kind, _) in zip(self.names, columns))]
        self.create = f"CREATE TABLE {self.name} ({', '.join(lines + [keys] * bool(keys))}) {options}"
        in_key = "PRIMARY KEY (c1, id)" in keys
        self.nulls = ["NOT NULL" not in kind and not (in_key and number == 0) for number, (kind, make) in enumerate(columns) if make]

    def _values(self, r):
        return ["NULL" if null and r.random() < 0.15 else make(r) for null, (_, make) in zip(self.nulls, self.made)]

    def insert(self, r, first, count):
        names = ", ".join(["id", *(column for column, _ in self.made)])
        rows = ", ".join(f"({', '.join([str(number), *self._values(r)])})" for number in range(first, first + count))
        return f"INSERT INTO {self.name} ({names}) VALUES {rows}"

    def update(self, r, where):
        sets = ", ".join(f"{column} = {value}" for (column, _), value in zip(self.made, self._values(r)))
        return f"UPDATE {self.name} SET {sets} WHERE {where}"


def of_families():
    for name, columns in FAMILIES.items():
        schema = MYSQL_ONLY if name in OF_MYSQL_ALONE else BOTH
        yield Table(schema, name, columns)
        yield Table(schema, name + "_no_key", columns, keys="")


def of_structures():
    number, text, row_format = integer(32, True), string(40, "utf8mb4"), "ENGINE=InnoDB ROW_FORMAT=DYNAMIC"
    word = f"VARCHAR(40) {UTF8}"
    yield Table(BOTH, "two_keys", [("INT", integer(8, True)), (word, text)], "PRIMARY KEY (c1, id)")
    yield Table(BOTH, "text_key", [(word + " NOT NULL", lambda r: f"'{r.getrandbits(64):x}'"), ("INT", number)], "PRIMARY KEY (c1, id)")
    yield Table(BOTH, "unique_key", [("INT", number), (word, text)], "UNIQUE KEY (id)")
    yield Table(BOTH, "null_unique", [("BIGINT", integer(64, True)), (word, text)], "UNIQUE KEY (c1, id)")
    yield Table(BOTH, "index_only", [("INT", integer(8, True)), (word, text)], "KEY (c1), KEY (c2)")
    yield Table(BOTH, "equal_rows", [("INT", lambda r: str(r.randint(0, 1)))], "", rows=30)
    yield Table(BOTH, "not_null", [("INT NOT NULL", number), (word + " NOT NULL", text), ("BLOB NOT NULL", binary(90))])
    yield Table(BOTH, "many_columns", [("TINYINT", integer(8, True))] * 260)
    yield Table(BOTH, "generated", [("INT", integer(16, True)), ("INT AS (c1 + 1) VIRTUAL", None), ("INT AS (c1 * 2) STORED", None), (word, text)],
                "PRIMARY KEY (id), KEY (c2), KEY (c3)")
    yield Table(BOTH, "partitions", [("INT", number), (word, text)], options="ENGINE=InnoDB PARTITION BY HASH (id) PARTITIONS 5")
    yield Table(BOTH, "select", [("INT", number), (word, text)], names=["a`b", "äß あ"])
    yield Table(NO_GTIDS, "no_transactions", [("INT", number), (word, text)], options="ENGINE=MyISAM")
    yield Table(ARIA, "aria", [("INT", number), (word, text)], options="ENGINE=Aria TRANSACTIONAL=1")
    yield Table(ARIA, "aria_no_crash", [("INT", number), (word, text)], options="ENGINE=Aria TRANSACTIONAL=0")
    yield Table(BOTH, "compressed", [(f"TEXT {UTF8}", string(900, "utf8mb4"))], options="ENGINE=InnoDB ROW_FORMAT=COMPRESSED")
    yield Table(BOTH, "wide_chars", [("CHAR(60) CHARACTER SET utf16", string(60, "utf8mb4")), ("VARCHAR(200) CHARACTER SET utf32", string(200, "utf8mb4"))])
    yield Table(BOTH, "parents", [("INT", number)])
    yield Table(BOTH, "children", [("INT", None), ("INT", number)],
                "PRIMARY KEY (id), FOREIGN KEY (c1) REFERENCES parents (id) ON DELETE CASCADE ON UPDATE CASCADE")
    yield Table(BOTH, "watched", [("INT", number)])
    yield Table(BOTH, "watch", [(word, text)], "", rows=0)
    yield Table(BOTH, "added", [("INT", number)])
    yield Table(BOTH, "big", [(f"MEDIUMTEXT {UTF8}", string(3000, "utf8mb4")), ("LONGBLOB", binary(6000))], options=row_format, rows=BIG_ROWS)
    # MySQL 9.7 logs some children before their grandchildren, without a check of the key; MariaDB checks it: 1452
    yield Table(MYSQL_ONLY, "grandchildren", [("INT", None), (word, text)],
                f"PRIMARY KEY (id), FOREIGN KEY (c1) REFERENCES {name_of(BOTH, 'children')} (id) ON DELETE SET NULL ON UPDATE CASCADE")
    yield Table(MYSQL_ONLY, "hidden_key", [("INT", number), (word, text)], "")
    yield Table(MYSQL_ONLY, "hidden_column", [("INT INVISIBLE", number), ("JSON", document), (f"{word} DEFAULT (UUID())", text)],
                "PRIMARY KEY (id), KEY ((c1 + 1))")
    yield Table(MYSQL_ONLY, "key_of_time", [("TIMESTAMP(6) NOT NULL", timestamp(6)), ("INT", number)], "PRIMARY KEY (c1, id)")


def tables_for(schemas):
    return [table for table in [*of_families(), *of_structures()] if table.schema in schemas]


def script(statements):
    return "SET time_zone = '+00:00';\n" + "".join(statement + ";\n" for statement in statements)


def creation(tables):
    """The statements that make the tables and their rows."""
    for schema in dict.fromkeys(table.schema for table in tables):
        yield f"CREATE DATABASE {name_of(schema)} CHARACTER SET utf8mb4"
    for table in tables:
        hidden = table.table == "hidden_key"
        yield f"USE {name_of(table.schema)}"
        if hidden:
            yield "SET sql_generate_invisible_primary_key = ON"
        yield table.create
        if hidden:
            yield "SET sql_generate_invisible_primary_key = OFF"
        if table.rows:
            yield table.insert(random.Random(f"{SEED} {table.name}"), 1, table.rows)
        if table.table in ("children", "grandchildren"):
            yield f"UPDATE {table.name} SET c1 = 1 + id % 40"
    yield f"USE {name_of(BOTH)}"
    yield "INSERT INTO equal_rows SELECT * FROM equal_rows"
    yield "CREATE TRIGGER watching AFTER UPDATE ON watched FOR EACH ROW INSERT INTO watch VALUES (NEW.id, CONCAT(OLD.c1, ' ', NEW.c1))"
    yield "ALTER TABLE added ADD COLUMN later VARCHAR(20) DEFAULT 'x'"


def changes(tables):
    """The statements that change each table: in transactions of some tables each, then over several tables, then large ones."""
    plain = [table for table in tables if table.table not in ("parents", "children", "grandchildren", "big")]
    safe = [table for table in plain if table.schema not in (NO_GTIDS, ARIA)]
    for start in range(0, len(safe), 3):
        some = safe[start:start + 3]
        yield from ["BEGIN", *of_each(some), "SAVEPOINT kept", *of_each(some, 2000), "COMMIT"]
    yield from of_each([table for table in plain if table not in safe])
    for table in plain:
        yield f"UPDATE {table.name} SET id = id + 5000 WHERE id % 11 = 3"
        yield f"DELETE FROM {table.name} WHERE id % 4 = 3"
    yield f"USE {name_of(BOTH)}"
    yield from over_several_tables()
    if any(table.table == "grandchildren" for table in tables):
        yield f"INSERT INTO {name_of(MYSQL_ONLY, 'grandchildren')} VALUES (801, 801, 'new')"
    yield from large_statements(next(table for table in tables if table.table == "big"))


def of_each(tables, first=1000):
    """Inserts, updates and deletes. What a table gets does not depend on the other tables."""
    for table in tables:
        r = random.Random(f"{SEED} {table.name} {first}")
        yield table.insert(r, first, 10)
        for rest in range(3):
            yield table.update(r, f"id % 7 = {rest}")
        yield f"DELETE FROM {table.name} WHERE id % 5 = 2"


def over_several_tables():
    yield "UPDATE integers JOIN positive USING (id) JOIN dates USING (id) SET integers.c1 = 1, positive.c2 = 2, dates.c1 = '2000-01-01' WHERE integers.id < 40"
    yield "DELETE integers, texts FROM integers JOIN texts USING (id) WHERE id % 9 = 1"
    yield "INSERT INTO two_keys SELECT id + 9000, c1 % 100, 'copied' FROM integers WHERE c1 IS NOT NULL"
    yield "INSERT INTO unique_key VALUES (5, 1, 'new'), (7001, 2, 'new') ON DUPLICATE KEY UPDATE c1 = 77, c2 = 'twice'"
    yield "REPLACE INTO unique_key VALUES (6, 1, 'replaced'), (7002, 2, 'replaced')"
    yield "DELETE FROM parents WHERE id % 4 = 1"
    yield "UPDATE parents SET id = id + 500 WHERE id % 6 = 2"
    yield "DELETE FROM children WHERE id % 5 = 3"
    yield "INSERT INTO parents VALUES (801, 1), (802, 2)"
    yield "INSERT INTO children VALUES (801, 801, 1), (802, 802, 2)"
    yield "UPDATE watched SET c1 = -5 WHERE id < 20"
    yield "UPDATE added SET later = 'y' WHERE id < 30"


def large_statements(big):
    """Statements of some megabytes each, and one row of three megabytes."""
    r = random.Random(f"{SEED} big")
    yield big.insert(r, 1001, 250)
    yield f"UPDATE {big.name} SET c1 = REVERSE(c1), c2 = CONCAT(c2, 'z')"
    yield f"UPDATE {big.name} SET c2 = REPEAT('0123456789', 300000) WHERE id = 7"
    yield f"DELETE FROM {big.name} WHERE id > 100"
