"""Trial 5, with --merge: rows that others changed since lose the mistake, and keep what others changed. Tables come out as if it had never been made."""

import json

from later_trial import (
    SHOP, SPARED, TABLES, Mistake, changes_around, changes_of_these, forgotten_where, hold_tables_as, joined, many, mistake_twice, right_changes, setup,
    undo_sql,
)
from programs import hold
from server import MARIADB
from tables import name_of
from undoing import apply_sql, names_in, state

# when the mistake is made, where it is chosen by its time, and a time after that
LONG_AGO, AFTER_THAT = 1000000000, "2001-09-10 00:00:00"


def of_schema(statements):
    """These statements of the first schema, in another one."""
    return lambda schema: [text.replace(name_of(SHOP), name_of(schema)) for text in statements]


def shifted_keys(schema):
    return [f"UPDATE {name_of(schema, 'customers')} SET id = id + 1 ORDER BY id DESC"]


def renamed(schema, condition="TRUE"):
    return [f"UPDATE {name_of(schema, 'customers')} SET name = 'renamed' WHERE {condition}"]


def inserted_and_updated(schema):
    customers = name_of(schema, "customers")
    return ["BEGIN", f"INSERT INTO {customers} VALUES (301, 'new', 'city 1'), (302, 'new', 'city 2'), (303, 'new', 'city 3')",
            f"UPDATE {customers} SET city = 'Ghent' WHERE id <= 10", "COMMIT"]


def inserted_by_others(schema):
    """What stays of `inserted_and_updated` if others change rows 5 and 302 since."""
    return [*renamed(schema, "id = 5"), f"INSERT INTO {name_of(schema, 'customers')} VALUES (302, 'renamed', 'city 2')"]


def of_one_client(statements):
    """Statements that one client gives, long ago."""
    return joined([f"SET timestamp = {LONG_AGO}", *statements])


def choice_of(server, programs, log):
    """How the first transaction of a log is chosen: by its thread, or by its time, since MariaDB's logs are read without threads."""
    if server.kind is MARIADB:
        return "--utc", "--stop-datetime", AFTER_THAT
    return "--thread", str(json.loads(programs.command("list", log, "--json").splitlines()[0])["thread"])


class MistakeInLogs:
    """A server on which a mistake was made, and what came since: in its log and in further ones, which are given together."""

    def __init__(self, server, programs, made, *since):
        server.query(joined(setup(SHOP)))
        server.next_log()
        server.query(of_one_client(made))
        logs = []
        for statements in since:
            server.query(joined(statements))
            logs.append(server.next_log())
        self.part = choice_of(server, programs, logs[0])
        # the first ones are before the last, in place of later ones
        self.log, self.later = logs[-1], logs[:-1]


def try_merge(server, programs, report, _):
    changes, of_these = list(right_changes(SHOP)), changes_of_these(SHOP)
    with report.trial("5: --merge: rows that were changed since are merged: the tables are as without the mistake"):
        hold_merged(server, programs, Mistake(server, programs, forgotten_where(SHOP), changes[:5] + of_these), 3, of_schema(changes[:5] + of_these))
    with report.trial("5: --merge: the same with changes in two further logs"):
        made = MistakeInLogs(server, programs, forgotten_where(SHOP), changes[:3], of_these[:1], changes[3:5] + of_these[1:])
        hold_merged(server, programs, made, 3, of_schema(changes[:5] + of_these))
    with report.trial("5: --merge: a mistake in two transactions; the second changed rows of the first"):
        made = Mistake(server, programs, mistake_twice(SHOP)[:1], mistake_twice(SHOP)[1:] + changes_around(SHOP))
        made.part = "--stop-position", made.stop_of(2)
        hold_merged(server, programs, made, 3, changes_around)
    with report.trial("5: --merge: 1 was added to each key, and all rows were changed since"):
        hold_merged(server, programs, Mistake(server, programs, shifted_keys(SHOP), renamed(SHOP)), 200, renamed)
    with report.trial("5: --merge: 1 was added to each key, and one row was changed since: 1062, and nothing changes"):
        hold_not_applied(server, programs, Mistake(server, programs, shifted_keys(SHOP), renamed(SHOP, "id = 100")), "1062")
    with report.trial("5: --merge: a row that the mistake inserted and others changed since stays"):
        hold_staying(server, programs)
    with report.trial("5: --merge: 2,000 of 20,000 rows were changed since, in a further log"):
        hold_merged_of_many(server, programs)
    with report.trial("5: --merge: the same with changes in a later log"):
        hold_merged(server, programs, Mistake(server, programs, forgotten_where(SHOP), changes[:3], of_these), 3, of_schema(changes[:3] + of_these))


def hold_merged(server, programs, made, rows, wanted):
    """So many rows are merged, and afterwards the tables are as by these statements."""
    hold(programs.refusal("undo", made.log, *made.part, *made.later).splitlines()[-1].startswith("binlog: ChangedSince: "), "nothing was changed since")
    told = programs.command("undo", made.log, *made.part, *made.later, "--merge", "--dry-run").decode().splitlines()
    hold(f"merges {rows} rows that were changed since, and keep these changes:" in told, f"the report is {told}")
    apply_sql(server, undo_sql(programs, made, "--merge"))
    hold_tables_as(server, wanted)


def hold_not_applied(server, programs, made, error):
    before = state(server, names_in(SHOP, *TABLES))
    answer = server.run(undo_sql(programs, made, "--merge"))
    hold(answer.status != 0 and error in answer.errors, f"the client ended with {answer.status}: {answer.errors}")
    hold(state(server, names_in(SHOP, *TABLES)) == before, "the tables changed")


def hold_staying(server, programs):
    made = Mistake(server, programs, inserted_and_updated(SHOP), renamed(SHOP, "id IN (5, 302)"))
    told = programs.command("undo", made.log, *made.part, "--merge", "--dry-run").decode().splitlines()
    for line in ("leaves 1 row as it is, which the mistake inserted and others changed since",
                 "merges 1 row that was changed since, and keeps these changes:"):
        hold(line in told, f"the report is {told}")
    apply_sql(server, undo_sql(programs, made, "--merge"))
    hold_tables_as(server, inserted_by_others)


def hold_merged_of_many(server, programs):
    table, spared = name_of(SHOP, "many"), name_of(SPARED, "many")
    server.query(joined([f"DROP DATABASE IF EXISTS {name_of(SHOP)}", f"CREATE DATABASE {name_of(SHOP)}", *many(SHOP, 20000)]))
    server.next_log()
    server.query(of_one_client([f"UPDATE {table} SET city = 'Ghent'"]))
    first = server.next_log()
    server.query(f"UPDATE {table} SET name = 'renamed' WHERE id % 10 = 3")
    second = server.next_log()
    apply_sql(server, programs.command("undo", second, *choice_of(server, programs, first), "--merge", first))
    server.query(joined([f"DROP DATABASE IF EXISTS {name_of(SPARED)}", f"CREATE DATABASE {name_of(SPARED)}", *many(SPARED, 20000),
                         f"UPDATE {spared} SET name = 'renamed' WHERE id % 10 = 3"]))
    found, wanted = (list(state(server, [name]).values()) for name in (table, spared))
    hold(found == wanted, "the tables differ")
