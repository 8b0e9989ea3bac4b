"""Trial 3: the privileges that a user needs to apply the SQL that undoes."""

import re

from programs import hold
from server import MYSQL
from tables import name_of
from undoing import ended_with, hold_same, names_in, state, undo_of

SCHEMA = "rights"
NAMES = names_in(SCHEMA, "orders")
EVERYTHING = f"ALL ON {name_of(SCHEMA)}.*"
READING = f"SELECT ON {name_of(SCHEMA)}.*"
WRITING = f"INSERT ON {name_of(SCHEMA)}.*"
SHORT = {EVERYTHING: "all on the table", READING: "SELECT on the table", WRITING: "INSERT on the table"}

# what is granted, and whether it is enough
OF_MYSQL = (
    ((), False),
    ((EVERYTHING,), False),
    (("BINLOG_ADMIN",), False),
    (("BINLOG_ADMIN", EVERYTHING), False),
    (("SESSION_VARIABLES_ADMIN",), False),
    (("SYSTEM_VARIABLES_ADMIN",), False),
    (("REPLICATION_APPLIER",), False),
    (("REPLICATION_APPLIER", READING), False),
    (("REPLICATION_APPLIER", WRITING), True),
    (("BINLOG_ADMIN", "SESSION_VARIABLES_ADMIN"), True),
    (("BINLOG_ADMIN", "SYSTEM_VARIABLES_ADMIN"), True),
    (("BINLOG_ADMIN", "REPLICATION_APPLIER"), True),
    (("SUPER",), True),
)
OF_MARIADB = (
    ((), False),
    ((EVERYTHING,), False),
    (("BINLOG ADMIN",), False),
    (("BINLOG REPLAY",), True),
    (("SUPER",), True),
)


def setup():
    yield f"DROP DATABASE IF EXISTS {name_of(SCHEMA)}"
    yield f"CREATE DATABASE {name_of(SCHEMA)} CHARACTER SET utf8mb4"
    yield f"CREATE TABLE {NAMES[0]} (id INT PRIMARY KEY, v VARCHAR(100)) ENGINE=InnoDB"
    yield f"INSERT INTO {NAMES[0]} VALUES (1, 'a'), (2, 'b'), (3, 'c')"


CHANGE = f"DELETE FROM {NAMES[0]} WHERE id > 1"


def try_privileges(server, programs, report, _):
    text = None
    with report.trial("3: the undo for users is made"):
        made = undo_of(server, programs, "rights", NAMES, "; ".join(setup()), CHANGE)
        text = programs.command("sql", made.undo)
    for number, (privileges, enough) in enumerate(OF_MYSQL if server.kind is MYSQL else OF_MARIADB) if text else ():
        title = " and ".join(SHORT.get(privilege, privilege) for privilege in privileges) or "no privilege"
        with report.trial(f"3: {title}: {'enough' if enough else 'not enough'}"):
            user = f"user{number}"
            server.query(grants(user, privileges))
            for options in ((), ("--force",)):
                server.query("; ".join([*setup(), CHANGE]))
                try_user(server, text, user, options, enough, made)


def grants(user, privileges):
    statements = [f"CREATE USER {user}@localhost"]
    statements += [f"GRANT {privilege}{'' if ' ON ' in privilege else ' ON *.*'} TO {user}@localhost" for privilege in privileges]
    return "; ".join(statements)


def try_user(server, text, user, options, enough, made):
    """Where it is not enough, nothing changes. With --force all may be undone, where only the line on GTIDs is at fault."""
    answer = server.run(text, *options, user=user)
    last, found = ended_with(answer), state(server, NAMES)
    about = f"{' '.join(options)} status {answer.status}, last line {last}: {answer.errors}"
    if enough:
        hold(answer.status == 0 and last == ("COMMIT", 0), about)
        hold_same(found, made.before, about)
        return
    hold(re.search(r"ERROR (1227|1105)\b", answer.errors), about)
    if options and last == ("COMMIT", 0):
        hold_same(found, made.before, about)
    else:
        hold(last[0] == "ROLLBACK" if options else not last and answer.status != 0, about)
        hold_same(found, made.after, about)
