"""Trial 5: undos that look at what came later. Tables come out as if the mistake had never been made, or nothing is written."""

import json

from programs import NotTried, hold
from server import MARIADB
from tables import name_of
from undoing import apply_sql, names_in, state

# the second has the same changes, but for the mistake
SHOP, SPARED = "shop", "spared"
TABLES = ("customers", "orders", "order_lines", "notes")
ROWS = 200


def setup(schema):
    customers, orders, lines, notes = names_in(schema, *TABLES)
    numbers = range(1, ROWS + 1)
    yield f"DROP DATABASE IF EXISTS {name_of(schema)}"
    yield f"CREATE DATABASE {name_of(schema)} CHARACTER SET utf8mb4"
    yield f"CREATE TABLE {customers} (id INT PRIMARY KEY, name VARCHAR(40), city VARCHAR(40))"
    yield f"CREATE TABLE {orders} (id INT PRIMARY KEY, customer INT, total DECIMAL(9,2), placed DATETIME(3))"
    yield (f"CREATE TABLE {lines} (id INT PRIMARY KEY, order_id INT, item VARCHAR(40), "
           f"FOREIGN KEY (order_id) REFERENCES {orders} (id) ON DELETE CASCADE)")
    yield f"CREATE TABLE {notes} (text VARCHAR(40), amount FLOAT)"
    yield f"INSERT INTO {customers} VALUES " + ", ".join(f"({n}, 'name {n}', 'city {n % 9}')" for n in numbers)
    yield f"INSERT INTO {orders} VALUES " + ", ".join(f"({n}, {1 + n % 50}, {n * 7 % 500}.50, '2026-11-01 10:00:00.{n:03}')" for n in numbers)
    yield f"INSERT INTO {lines} VALUES " + ", ".join(f"({n}, {1 + n // 2}, 'item {n % 13}')" for n in numbers)
    # this table has no key, and the same row several times
    yield f"INSERT INTO {notes} VALUES " + ", ".join(f"('note {n % 5}', {n % 3}.25)" for n in numbers)


def of_lines(server, schema, first, last):
    """Lines of orders, which MySQL's log has where a cascade deletes them, and MariaDB's doesn't: there they are deleted first."""
    lines = name_of(schema, "order_lines")
    return [f"DELETE FROM {lines} WHERE order_id BETWEEN {first} AND {last}"] if server.kind is MARIADB else []


def mistake(server, schema):
    """Orders, with their lines, and notes: among these some of several equal rows."""
    _, orders, _, notes = names_in(schema, *TABLES)
    return ["BEGIN", *of_lines(server, schema, 21, 60), f"DELETE FROM {orders} WHERE id BETWEEN 21 AND 60",
            f"DELETE FROM {notes} WHERE text = 'note 3' LIMIT 15", "COMMIT"]


def mistake_in_two(server, schema):
    """The same in two transactions, which delete 20 orders each."""
    _, orders, _, notes = names_in(schema, *TABLES)
    yield ["BEGIN", *of_lines(server, schema, 21, 40), f"DELETE FROM {orders} WHERE id BETWEEN 21 AND 40", "COMMIT"]
    yield ["BEGIN", *of_lines(server, schema, 41, 60), f"DELETE FROM {orders} WHERE id BETWEEN 41 AND 60", f"DELETE FROM {notes} WHERE text = 'note 3' LIMIT 15", "COMMIT"]


def mistake_beside_statements(schema):
    """Some of several equal notes, in two transactions, with statements about another table between and after them: all of one client."""
    notes, archive = names_in(schema, "notes", "archive")
    return [f"DELETE FROM {notes} WHERE text = 'note 3' LIMIT 15", f"CREATE TABLE {archive} (id INT)", f"ALTER TABLE {archive} ADD COLUMN name INT",
            f"DELETE FROM {notes} WHERE text = 'note 2' LIMIT 15", f"DROP TABLE {archive}"]


def right_changes(schema):
    """What others do since, in rows of the same tables that the mistake leaves alone."""
    customers, orders, lines, notes = names_in(schema, *TABLES)
    yield f"INSERT INTO {orders} VALUES (1001, 7, 12.00, '2026-11-02 08:00:00'), (1002, 8, 13.00, NULL)"
    yield f"INSERT INTO {lines} VALUES (1001, 1001, 'item 1'), (1002, 1, 'item 2')"
    yield f"UPDATE {orders} SET total = total + 1 WHERE id BETWEEN 100 AND 120"
    yield f"UPDATE {orders} SET total = total + 1 WHERE id BETWEEN 110 AND 130"
    yield f"DELETE FROM {orders} WHERE id = 150"
    yield f"UPDATE {customers} SET city = 'city 10'"
    yield f"UPDATE {notes} SET amount = amount + 1 WHERE text = 'note 4'"
    yield f"DELETE FROM {orders} WHERE id = 1002"


def forgotten_where(schema):
    return [f"UPDATE {name_of(schema, 'customers')} SET city = 'Ghent'"]


def changes_of_these(schema):
    """What others do since, in rows that the mistake changed: these three are updated."""
    customers = name_of(schema, "customers")
    return [f"UPDATE {customers} SET name = 'renamed' WHERE id IN (5, 6)", f"UPDATE {customers} SET name = 'renamed' WHERE id = 7"]


def left_as_they_are(schema):
    """What an undo of `forgotten_where` that leaves rows which were changed since doesn't undo, with these changes."""
    return [f"UPDATE {name_of(schema, 'customers')} SET city = 'Ghent', name = 'renamed' WHERE id IN (5, 6, 7)"]


def mistake_twice(schema):
    """A mistake in two transactions, of which the second changes rows of the first once more: 90 to 109 twice."""
    customers = name_of(schema, "customers")
    return [f"UPDATE {customers} SET city = 'Ghent' WHERE id <= 109", f"UPDATE {customers} SET name = 'nobody' WHERE id >= 90"]


def changes_around(schema):
    """What others do since: they change rows that the first transaction left, that the second did, and that both changed; they delete two, and
    insert one of them again as it was before; and they change a row back that they had changed."""
    customers = name_of(schema, "customers")
    return [f"UPDATE {customers} SET name = 'renamed' WHERE id IN (1, 100, 150)", f"DELETE FROM {customers} WHERE id IN (20, 105)",
            f"INSERT INTO {customers} VALUES (20, 'name 20', 'city 2')",
            f"UPDATE {customers} SET name = 'for a while' WHERE id = 30", f"UPDATE {customers} SET name = 'name 30' WHERE id = 30"]


def left_of_both(schema):
    """What is left of these by an undo that leaves rows which were changed since. Row 30 is as the first transaction left it, but not by it."""
    customers = name_of(schema, "customers")
    return [f"UPDATE {customers} SET city = 'Ghent' WHERE id IN (1, 30, 100)", f"UPDATE {customers} SET name = 'renamed' WHERE id IN (1, 100, 150)",
            f"DELETE FROM {customers} WHERE id = 105"]


def many(schema, rows):
    """A table with so many rows."""
    numbers, table = ("SELECT a.d * 1000 + b.d * 100 + c.d * 10 + d.d + 1 AS n FROM thousands a, digits b, digits c, digits d "
                      f"WHERE a.d * 1000 < {rows}"), name_of(schema, "many")
    digits = " UNION ALL ".join(f"SELECT {n} AS d" for n in range(10))
    thousands = " UNION ALL ".join(f"SELECT {n} AS d" for n in range(-(-rows // 1000)))
    return [f"CREATE TABLE {table} (id INT PRIMARY KEY, name VARCHAR(40), city VARCHAR(40))",
            f"INSERT INTO {table} WITH digits AS ({digits}), thousands AS ({thousands}) SELECT n, CONCAT('name ', n), CONCAT('city ', n % 9) FROM ({numbers}) AS numbers"]


def added_column(schema):
    orders = name_of(schema, "orders")
    return [f"ALTER TABLE {orders} ADD COLUMN channel VARCHAR(10) DEFAULT 'web' AFTER customer",
            f"INSERT INTO {orders} VALUES (2001, 7, 'shop', 1.00, NULL)"]


def joined(statements):
    return "; ".join(statements)


class Mistake:
    """A server on which a mistake was made, and what came since: in the log of which the mistake is a part, and in later logs."""

    def __init__(self, server, programs, made, since, *in_later_logs):
        server.query(joined(setup(SHOP)))
        self.before = state(server, names_in(SHOP, *TABLES))
        server.next_log()
        server.query(joined(made))
        server.query(joined(since))
        self.log = server.next_log()
        self.later = []
        for statements in in_later_logs:
            server.query(joined(statements))
            self.later += ["--later", server.next_log()]
        self.units = [json.loads(line) for line in programs.command("list", self.log, "--json").splitlines()]
        self.part = "-j", str(self.units[0]["start"]), "--stop-position", self.stop_of(1)

    def stop_of(self, units):
        """The end of the first units of the log."""
        return str(self.units[units - 1]["stop"])


class MistakeInTwo:
    """A server on which a mistake was made in two transactions, with right changes between and after these."""

    def __init__(self, server, programs, changes):
        server.query(joined(setup(SHOP)))
        server.next_log()
        first, second = mistake_in_two(server, SHOP)
        for statements in (first, changes[:4], second, changes[4:]):
            server.query(joined(statements))
        self.log, self.later = server.next_log(), []
        lines = [json.loads(line) for line in programs.command("list", self.log, "--json").splitlines()]
        units = [line for line in lines if any(table["table"] == "orders" and table["deletes"] == 20 for table in line.get("tables", ()))]
        ways = [("--at", "start")] + [("--thread", "thread")] * (server.kind is not MARIADB) + [("--gtid", "gtid")] * server.has_gtids
        self.choices = [[word for unit in units for word in (option, str(unit[key]))] for option, key in ways]
        self.part = self.choices[0]


class MistakeInTwoLogs:
    """A server on which a mistake was made in two transactions, in two logs. Where transactions are chosen by their threads right changes
    are between these. MariaDB's logs are read without threads: there all from the one to the other is the mistake."""

    def __init__(self, server, programs, changes):
        server.query(joined(setup(SHOP)))
        server.next_log()
        first, second = mistake_in_two(server, SHOP)
        between = [] if server.kind is MARIADB else changes[:4]
        logs, units = [], []
        for statements in ((first, between[:2]), (between[2:], second, changes[len(between):])):
            for one in filter(None, statements):
                server.query(joined(one))
            logs.append(server.next_log())
            lines = [json.loads(line) for line in programs.command("list", logs[-1], "--json").splitlines()]
            units += [line for line in lines if any(table["table"] == "orders" and table["deletes"] == 20 for table in line.get("tables", ()))]
        # both are undone: the first stands before the last, in place of later ones
        self.log, self.later = logs[1], logs[:1]
        if server.kind is MARIADB:
            self.part = "-j", str(units[0]["start"]), "--stop-position", str(units[1]["stop"])
        else:
            self.part = [word for unit in units for word in ("--thread", str(unit["thread"]))]


class MistakeOfOneClient:
    """A server on which one client made a mistake, and gave statements about another table. Both are chosen by the client's thread,
    or, on MariaDB, whose logs are read without threads, by their places; or by the range in which they are."""

    def __init__(self, server, programs, changes):
        server.query(joined(setup(SHOP)))
        server.next_log()
        server.query(joined(mistake_beside_statements(SHOP)))
        server.query(joined(changes))
        self.log, self.later = server.next_log(), []
        lines = [json.loads(line) for line in programs.command("list", self.log, "--json").splitlines()]
        made = [line for line in lines if any(table["deletes"] == 15 for table in line.get("tables", ()))]
        if server.kind is MARIADB:
            last = lines.index(made[-1])
            self.choice = [word for line in lines[:last + 1] for word in ("--at", str(line["start"]))]
        else:
            self.choice = [word for thread in {line["thread"] for line in made} for word in ("--thread", str(thread))]
        self.range = "-j", str(made[0]["start"]), "--stop-position", str(made[-1]["stop"])
        self.part = "-T", f"{SHOP}.notes", *self.choice


def try_later(server, programs, report, _):
    changes = list(right_changes(SHOP))
    with report.trial("5: a mistake is undone after right changes: the tables are as without it"):
        hold_as_without(server, programs, Mistake(server, programs, mistake(server, SHOP), changes))
    with report.trial("5: the same with right changes in two later logs, too"):
        hold_as_without(server, programs, Mistake(server, programs, mistake(server, SHOP), changes[:3], changes[3:6], changes[6:]))
    with report.trial("5: a mistake in two transactions is undone, with right changes between them"):
        made = MistakeInTwo(server, programs, changes)
        texts = {programs.command("undo", made.log, *choice, "--keep-times") for choice in made.choices}
        hold(len(texts) <= 1, "the SQL differs by how the transactions are chosen")
        hold_as_without(server, programs, made)
    with report.trial("5: a mistake in two logs, which are undone as one"):
        hold_as_without(server, programs, MistakeInTwoLogs(server, programs, changes))
    with report.trial("5: the client of a mistake gave statements about another table, too: -T passes them over"):
        made = MistakeOfOneClient(server, programs, changes)
        for choice in (made.choice, made.range):
            told = programs.refusal("undo", made.log, *choice)
            hold(told.startswith("binlog: Statement at "), f"without -T it says {told}")
        texts = {programs.command("undo", made.log, "-T", f"{SHOP}.notes", *choice, "--keep-times") for choice in (made.choice, made.range)}
        hold(len(texts) == 1, "the SQL differs by how the transactions are chosen")
        hold_as_without(server, programs, made)
    with report.trial("5: --anyway: later changes of these rows are overwritten"):
        hold_overwritten(server, programs)
    with report.trial("5: rows were changed since: nothing is written"):
        made = Mistake(server, programs, forgotten_where(SHOP), changes_of_these(SHOP))
        hold_refused(server, programs, made, "ChangedSince: 3 rows ", f"{name_of(SHOP, 'customers')}: update", 2)
    with report.trial("5: rows were changed in a later log: nothing is written"):
        made = Mistake(server, programs, forgotten_where(SHOP), changes[:3], changes_of_these(SHOP))
        hold_refused(server, programs, made, "ChangedSince: 3 rows ", f"{name_of(SHOP, 'customers')}: update", 2)
    with report.trial("5: --leave: rows that were changed since are left as they are, and the others are undone"):
        hold_left(server, programs, Mistake(server, programs, forgotten_where(SHOP), changes[:5] + changes_of_these(SHOP)), 3, changes_left(changes[:5]))
    with report.trial("5: --leave: the same with changes in two later logs"):
        made = Mistake(server, programs, forgotten_where(SHOP), changes[:3], changes_of_these(SHOP)[:1], changes[3:5] + changes_of_these(SHOP)[1:])
        hold_left(server, programs, made, 3, changes_left(changes[:5]))
    with report.trial("5: --leave: a mistake in two transactions; the second changed rows of the first"):
        made = Mistake(server, programs, mistake_twice(SHOP)[:1], mistake_twice(SHOP)[1:] + changes_around(SHOP))
        made.part = "--stop-position", made.stop_of(2)
        hold_left(server, programs, made, 8, left_of_both)
    with report.trial("5: --leave: 2,000 of 20,000 rows were changed since"):
        hold_left_of_many(server, programs)
    with report.trial("5: a column was added since: nothing is written"):
        made = Mistake(server, programs, mistake(server, SHOP), added_column(SHOP))
        hold_refused(server, programs, made, "UnknownSince: ", ": may change these tables, and can't be looked into", 1)


def undo_sql(programs, made, *options):
    return programs.command("undo", made.log, *made.part, *made.later, *options)


def hold_as_without(server, programs, made):
    apply_sql(server, undo_sql(programs, made))
    hold_tables_as(server, right_changes)


def hold_tables_as(server, statements):
    """The tables are as those of another schema in which these statements were made."""
    server.query(joined([*setup(SPARED), *statements(SPARED)]))
    found, wanted = (list(state(server, names_in(schema, *TABLES)).values()) for schema in (SHOP, SPARED))
    other = [table for table, has, should in zip(TABLES, found, wanted) if has != should]
    hold(not other, f"these tables differ: {', '.join(other)}")


def hold_overwritten(server, programs):
    made = Mistake(server, programs, forgotten_where(SHOP), changes_of_these(SHOP))
    apply_sql(server, undo_sql(programs, made, "--anyway"))
    hold(state(server, names_in(SHOP, *TABLES)) == made.before, "the tables are not as before the mistake")


def changes_left(changes):
    """These changes, and the rows that are left."""
    return lambda schema: [text.replace(name_of(SHOP), name_of(schema)) for text in changes] + left_as_they_are(schema)


def hold_left(server, programs, made, rows, wanted):
    """An undo leaves so many rows, and afterwards the tables are as by these statements."""
    hold(programs.refusal("undo", made.log, *made.part, *made.later).splitlines()[-1].startswith("binlog: ChangedSince: "), "nothing was changed since")
    told = programs.command("undo", made.log, *made.part, *made.later, "--leave", "--dry-run").decode().splitlines()
    hold(f"leaves {rows} rows as they are, which were changed since:" in told, f"the report is {told}")
    apply_sql(server, undo_sql(programs, made, "--leave"))
    hold_tables_as(server, wanted)


def hold_left_of_many(server, programs):
    table, spared = name_of(SHOP, "many"), name_of(SPARED, "many")
    server.query(joined([f"DROP DATABASE IF EXISTS {name_of(SHOP)}", f"CREATE DATABASE {name_of(SHOP)}", *many(SHOP, 20000)]))
    server.next_log()
    server.query(f"UPDATE {table} SET city = 'Ghent'")
    server.query(f"UPDATE {table} SET name = 'renamed' WHERE id % 10 = 3")
    log = server.next_log()
    first = json.loads(programs.command("list", log, "--json").splitlines()[0])
    apply_sql(server, programs.command("undo", log, "--at", str(first["start"]), "--leave"))
    server.query(joined([f"DROP DATABASE IF EXISTS {name_of(SPARED)}", f"CREATE DATABASE {name_of(SPARED)}", *many(SPARED, 20000),
                         f"UPDATE {spared} SET name = 'renamed', city = 'Ghent' WHERE id % 10 = 3"]))
    found, wanted = (list(state(server, [name]).values()) for name in (table, spared))
    hold(found == wanted, "the tables differ")


def hold_refused(server, programs, made, fault, line, lines):
    result = server.folder / "refused.sql"
    told = programs.refusal("undo", made.log, *made.part, *made.later, "-r", result).splitlines()
    hold(told[-1].startswith(f"binlog: {fault}"), f"the last line is {told[-1]}")
    hold(len(told) == 1 + lines and all(text.endswith(line) for text in told[:-1]), f"the lines above are {told[:-1]}")
    hold(not result.exists(), "a file was written")
