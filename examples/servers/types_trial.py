"""Trial 1, tables of all types come back; and trial 4, what MySQL's log became undoes on MariaDB, too."""

from programs import NotTried, hold
from server import MARIADB
from tables import ARIA, BOTH, MYSQL_ONLY, NO_GTIDS, changes, creation, name_of, script, tables_for
from undoing import Kept, apply_log, apply_sql, hold_same, state


# rows that a foreign key deleted aren't in MariaDB's log: they don't come back
CASCADED = (name_of(BOTH, "children"),)


class Tables:
    """The tables on a server, before and after the changes, and the log of these."""

    def __init__(self, server):
        self.server = server
        schemas = (BOTH, NO_GTIDS, ARIA) if server.kind is MARIADB else (BOTH, MYSQL_ONLY) if server.has_gtids else (BOTH, MYSQL_ONLY, NO_GTIDS)
        tables = tables_for(schemas)
        self.names = [table.name for table in tables]
        server.query(script(creation(tables)))
        self.before = state(server, self.names)
        server.next_log()
        server.query(script(changes(tables)))
        self.after = self.now = state(server, self.names)
        self.log = server.next_log()

    def go(self, apply, start, wanted, but):
        """Applies something to tables that are as at its start. Some tables aren't compared."""
        if any(self.now[name] != start[name] for name in self.names if name not in but):
            raise NotTried("the trial before it left other tables")
        try:
            apply()
        finally:
            self.now = state(self.server, self.names)
        hold_same(self.now, {name: wanted[name] for name in self.names if name not in but}, "applied")

    def go_and_return(self, report, title, undo, redo, but=()):
        """Applies the undo, and then its undo."""
        for what, apply, start, wanted in (("before", undo, self.after, self.before), ("after", redo, self.before, self.after)):
            with report.trial(f"{title}: all tables are as {what} the changes"):
                self.go(apply, start, wanted, but)


def try_types(server, programs, report, kept):
    tables = None
    with report.trial("1: tables of all types are filled and changed") as notes:
        tables = Tables(server)
        notes.append(f"{len(tables.names)} tables, {tables.log.stat().st_size / 1e6:.0f} MB of log")
        same = [name for name in tables.names if tables.before[name] == tables.after[name]]
        hold(not same, f"unchanged are {', '.join(same)}")
    if tables:
        try_own_log(server, programs, report, kept, tables)
    if tables and server.kind is MARIADB:
        try_log_of_mysql(server, programs, report, kept, tables)


def try_own_log(server, programs, report, kept, tables):
    undo, redo = (server.folder / f"types.{kind}" for kind in ("undo", "redo"))
    with report.trial("1: the log is undone, and the undo is undone"):
        make_logs(server, programs, kept, tables.log, undo, redo)
    if redo.exists():
        but = CASCADED if server.kind is MARIADB else ()
        if server.kind is not MARIADB:
            tables.go_and_return(report, "1: by mysqlbinlog", lambda: apply_log(server, undo), lambda: apply_log(server, redo))
        by_sql(server, programs, report, tables, "1: by binlog sql", undo, redo, but)
        tables.go_and_return(report, "1: by binlog undo and binlog redo",
                             lambda: apply_sql(server, programs.command("undo", tables.log, "--anyway")),
                             lambda: apply_sql(server, programs.command("redo", tables.log)), but)


def by_sql(server, programs, report, tables, title, undo, redo, but=()):
    tables.go_and_return(report, title, lambda: apply_sql(server, programs.command("sql", undo)),
                         lambda: apply_sql(server, programs.command("sql", redo)), but)


def make_logs(server, programs, kept, log, undo, redo):
    plain = server.folder / "types.plain"
    programs.plain(log, plain)
    programs.undo(plain, undo)
    programs.undo(undo, redo)
    if server.kind is not MARIADB:
        of_both = [server.folder / f"both.{kind}" for kind in ("undo", "redo")]
        programs.undo(plain, of_both[0], "-d", BOTH)
        programs.undo(of_both[0], of_both[1])
        kept[BOTH] = Kept(*(path.read_bytes() for path in (*of_both, log)))


def try_log_of_mysql(server, programs, report, kept, tables):
    title = "4: MySQL's log, by binlog sql"
    if BOTH not in kept:
        with report.trial(title):
            raise NotTried("no log of MySQL is there")
        return
    undo, redo, log = (server.folder / f"both.{kind}" for kind in ("undo", "redo", "log"))
    for path, made in zip((undo, redo, log), kept[BOTH]):
        path.write_bytes(made)
    others = [name for name in tables.names if not name.startswith(f"{name_of(BOTH)}.")]
    by_sql(server, programs, report, tables, title, undo, redo, others)
    tables.go_and_return(report, "4: MySQL's log, by binlog undo and binlog redo",
                         lambda: apply_sql(server, programs.command("undo", log, "--anyway", "-d", BOTH)),
                         lambda: apply_sql(server, programs.command("redo", log, "-d", BOTH)), others)
