"""Trial 2: where the SQL that undoes meets an error, or is cut, no table changes."""

import random
import re
import subprocess
import time

from programs import NotHeld, NotTried, hold
from server import answer_of
from tables import SEED, name_of
from undoing import apply_sql, ended_with, hold_same, names_in, state, undo_of

SCHEMA = "errors"
# the last is of MyISAM
NAMES = names_in(SCHEMA, *"abcdem")
WAIT_SECONDS = 30
WAYS = (("mysql", ()), ("mysql --force", ("--force",)))
# the undo goes from table e to table a; table c is in the middle
UPDATES = [f"UPDATE {name} SET v = CONCAT(v, '!')" for name in NAMES[:5]]
DELETES = [*UPDATES[:2], f"DELETE FROM {NAMES[2]} WHERE id BETWEEN 20 AND 80", *UPDATES[3:]]
MIXED = [*UPDATES[:2], f"DELETE FROM {NAMES[5]} WHERE id BETWEEN 20 AND 80", *UPDATES[3:]]
CHANGES = {"updates": UPDATES, "deletes": DELETES, "changes of InnoDB and MyISAM": MIXED}


def setup():
    rows = ", ".join(f"({number}, 'row {number}')" for number in range(1, 101))
    yield f"DROP DATABASE IF EXISTS {name_of(SCHEMA)}"
    yield f"CREATE DATABASE {name_of(SCHEMA)} CHARACTER SET utf8mb4"
    yield f"CREATE TABLE {name_of(SCHEMA, 'heavy')} (id INT PRIMARY KEY) ENGINE=InnoDB"
    for name in NAMES:
        yield f"CREATE TABLE {name} (id INT PRIMARY KEY, v VARCHAR(100)) ENGINE={'MyISAM' if name == NAMES[5] else 'InnoDB'}"
        yield f"INSERT INTO {name} VALUES {rows}"


class Holder:
    """Another client, in a transaction of its own that holds a row of table c."""

    def __init__(self, server):
        self.process = subprocess.Popen(server.client("--batch", "--skip-column-names", "--unbuffered"), text=True,
                                        stdin=subprocess.PIPE, stdout=subprocess.PIPE, stderr=subprocess.STDOUT)
        rows = ", ".join(f"({number})" for number in range(3000))
        self.say(f"BEGIN; INSERT INTO {name_of(SCHEMA, 'heavy')} VALUES {rows}; UPDATE {NAMES[2]} SET v = 'held' WHERE id = 50")

    def __enter__(self):
        return self

    def __exit__(self, *_):
        self.process.stdin.close()
        self.process.stdout.read()
        self.process.wait()

    def say(self, text):
        """Runs the text, and waits until it is done."""
        self.process.stdin.write(f"{text}; SELECT 'done';\n")
        self.process.stdin.flush()
        line = self.process.stdout.readline()
        hold(line == "done\n", f"the other client says {line}")


def waiting(server):
    """The connection that waits for a lock."""
    end = time.monotonic() + WAIT_SECONDS
    while time.monotonic() < end:
        found = server.query("SELECT trx_mysql_thread_id FROM information_schema.innodb_trx WHERE trx_state = 'LOCK WAIT'")
        if found:
            return found[0]
        time.sleep(0.1)
    raise NotHeld("nobody waits for a lock")


def at_once(server, text, options):
    return server.run(text, *options)


def lock_wait(server, text, options):
    with Holder(server):
        return server.run(text, "--init-command=SET innodb_lock_wait_timeout = 1", *options)


def while_it_waits(act):
    """Applies the text, and acts once it waits for the row that another client holds."""
    def apply(server, text, options):
        path = server.folder / "waiting.sql"
        path.write_bytes(text)
        client = None
        try:
            with Holder(server) as holder, open(path, "rb") as file:
                client = subprocess.Popen(server.client(*options), stdin=file, stdout=subprocess.PIPE, stderr=subprocess.PIPE)
                act(server, holder, waiting(server))
        finally:
            output, errors = client.communicate() if client else (b"", b"")
        return answer_of(client.returncode, output, errors)
    return apply


def deadlock(server, holder, _):
    """The other client has changed more rows, so the server ends the transaction of the undo."""
    holder.say(f"UPDATE {NAMES[4]} SET v = 'crossed' WHERE id = 50")


def kill(server, _, connection):
    server.query(f"KILL {connection}")


# name, changes, what somebody does since, how the text is applied, the numbers of the errors that may come
ERRORS = (
    ("1032, a row was deleted since", "updates", f"DELETE FROM {NAMES[2]} WHERE id = 50", at_once, "1032"),
    ("1062, a key was inserted since", "deletes", f"INSERT INTO {NAMES[2]} VALUES (50, 'later')", at_once, "1062"),
    ("1205, a lock is held", "updates", "", lock_wait, "1205"),
    ("1213, a deadlock", "updates", "", while_it_waits(deadlock), "1213"),
    ("the connection is killed", "updates", "", while_it_waits(kill), "2013|2006|1317|1927|4031"),
)
# where GTIDs are on, one transaction may not have both
WITH_GTIDS = ("1785, InnoDB and MyISAM where GTIDs are on", "changes of InnoDB and MyISAM", "", at_once, "1785")


def try_errors(server, programs, report, _):
    texts = {}
    for name, change in CHANGES.items():
        with report.trial(f"2: {name} are undone where nothing is in the way"):
            made = undo_of(server, programs, f"errors_{name}", NAMES, joined(setup()), joined(change))
            texts[name] = programs.command("sql", made.undo)
            if server.has_gtids and change is MIXED:
                raise NotTried("GTIDs are on")
            apply_sql(server, texts[name])
            hold_same(state(server, NAMES), made.before, "the undo is applied")
    for name, change, since, apply, error in (*ERRORS, WITH_GTIDS) if server.has_gtids else ERRORS:
        for way, options in WAYS if change in texts else ():
            with report.trial(f"2: {name}: nothing changes by {way}"):
                server.query(joined([*setup(), *CHANGES[change], since]))
                try_error(server, texts[change], apply, error, options)
    if "updates" in texts:
        with report.trial("2: the text is cut before its COMMIT: nothing changes") as notes:
            notes.append(f"{try_cuts(server, texts['updates'])} cuts")


def joined(statements):
    return "; ".join(statement for statement in statements if statement)


def try_error(server, text, apply, error, options):
    found = state(server, NAMES)
    answer = apply(server, text, options)
    hold(re.search(rf"ERROR ({error})\b", answer.errors), f"no error {error}: {answer.errors or answer.output}")
    last = ended_with(answer)
    hold_same(state(server, NAMES), found, f"status {answer.status}, last line {last}, {answer.errors}")
    if last:
        hold(options, "the last line is there, without --force")
        hold(last[0] == "ROLLBACK" and last[1] > 0, f"the last line says {last}")


def cuts(text):
    """Places where a text is cut: at each line that is not base64, some inside base64, the last within the line that commits."""
    end = text.index(b"EXECUTE undo_end") + len("EXECUTE undo_end")
    lines = [match.start() for match in re.finditer(rb"(?m)^(?![A-Za-z0-9+/=]+$).*$", text)]
    r = random.Random(SEED)
    inside = [r.randrange(end) for _ in range(20)]
    return sorted({place for place in [*lines, *inside, end - 1, end - 9] if place < end})


def try_cuts(server, text):
    """Gives the server the beginnings of a text, and returns how many."""
    server.query(joined([*setup(), *UPDATES]))
    found = state(server, NAMES)
    for place in cuts(text):
        for way, options in WAYS:
            answer = server.run(text[:place], *options)
            hold(ended_with(answer) is None, f"cut at {place} the last line is there")
            hold_same(state(server, NAMES), found, f"cut at {place}, by {way}")
    return len(cuts(text))
