"""States of tables, logs that undo a change of them, and how these are applied."""

import hashlib
from collections import namedtuple

from programs import hold
from server import MARIADB
from tables import BOTH, name_of

Undo = namedtuple("Undo", "before after undo")
Kept = namedtuple("Kept", "undo redo log")


# MariaDB 10.11 gives these another sum after a SELECT or FLUSH TABLES, though the rows are the same
WITHOUT_SUM = (name_of(BOTH, "generated"),)


def state(server, names):
    """What each table has: its CHECKSUM TABLE, and a hash of its rows as the client prints them."""
    sums = [line.split("\t")[-1] for line in server.query(f"CHECKSUM TABLE {', '.join(names)}")]
    if server.kind is MARIADB:
        sums = ["" if name in WITHOUT_SUM else number for name, number in zip(names, sums, strict=True)]
    rows = "SET time_zone = '+00:00';" + "".join(f"SELECT '-- {number}'; SELECT * FROM {name};" for number, name in enumerate(names))
    hashes, lines = [], []
    for line in [*server.query(rows), "-- end"]:
        if not line.startswith("-- "):
            lines.append(line)
        elif line != "-- 0":
            hashes.append(hashlib.sha256("\n".join(sorted(lines)).encode()).hexdigest()[:16])
            lines = []
    return dict(zip(names, zip(sums, hashes, strict=True), strict=True))


def hold_same(found, wanted, when):
    other = [name for name in wanted if found[name] != wanted[name]]
    hold(not other, f"{when}: {len(other)} of {len(wanted)} tables differ: {', '.join(other[:5])}")


def names_in(schema, *tables):
    return [name_of(schema, table) for table in tables]


def undo_of(server, programs, name, names, setup, change):
    """Makes the change on the server, and of its log the undo."""
    server.query(setup)
    before = state(server, names)
    server.next_log()
    server.query(change)
    after = state(server, names)
    log = server.next_log()
    plain, undo = (server.folder / f"{name}.{kind}" for kind in ("plain", "undo"))
    for path in (plain, undo):
        path.unlink(missing_ok=True)
    programs.plain(log, plain)
    programs.undo(plain, undo)
    return Undo(before, after, undo)


def ended_with(answer):
    """The last line that the text of `binlog sql` prints: COMMIT or ROLLBACK, and the number of errors. None without it."""
    lines = answer.output.splitlines()
    if len(lines) < 2 or lines[-2] != "ended_with\terrors":
        return None
    word, errors = lines[-1].split("\t")
    return word, int(errors)


def apply_sql(server, text):
    """Applies the text of `binlog sql`, which has to end with COMMIT."""
    answer = server.run(text)
    hold(answer.status == 0, f"mysql ended with {answer.status}: {answer.errors}")
    hold(ended_with(answer) == ("COMMIT", 0), f"the last lines are {answer.output.splitlines()[-2:]}")


def apply_log(server, log):
    answer = server.apply_log(log.name)
    hold(answer.status == 0, f"mysqlbinlog or mysql ended with {answer.status}: {answer.errors}")
