#!/usr/bin/env python3
"""Starts real servers on this machine, and tries whether tables come back: try.py [--trees DIR] [mysql] [mariadb]

README.md beside this file says what is tried.
"""

import argparse
import os
import signal
import sys
import time

# these files are packed as they are, without what Python would write beside them
sys.dont_write_bytecode = True

from errors_trial import try_errors
from later_trial import try_later
from merge_trial import try_merge
from privileges_trial import try_privileges
from programs import Programs, Report, warn
from server import KINDS, MARIADB, MYSQL, Server, ServerError, Tree
from shown_trial import try_shown
from types_trial import try_types

SETTINGS = {
    MYSQL: (("GTIDs on", ("--gtid-mode=ON", "--enforce-gtid-consistency=ON")),
            ("GTIDs off, row metadata FULL", ("--gtid-mode=OFF", "--enforce-gtid-consistency=OFF", "--binlog-row-metadata=FULL"))),
    MARIADB: (("defaults", ()), ("no checksums", ("--binlog-checksum=NONE",))),
}
TRIALS = {"types": try_types, "errors": try_errors, "privileges": try_privileges, "later": try_later, "merge": try_merge,
          "shown": try_shown}


def arguments():
    parser = argparse.ArgumentParser(description="Tries on real servers whether tables come back.")
    parser.add_argument("servers", nargs="*", metavar="SERVER", help="mysql, mariadb; both if none is given")
    parser.add_argument("--trees", default=os.environ.get("TREES", "/var/tmp/try_servers"), metavar="DIR",
                        help="where the servers' packages are, or will be (default: $TREES, or %(default)s)")
    parser.add_argument("--trial", action="append", choices=TRIALS, help="only this trial")
    chosen = parser.parse_args()
    for name in chosen.servers:
        if name not in KINDS:
            parser.error(f"no server {name}: choose from {', '.join(KINDS)}")
    return chosen


def try_server(kind, chosen, programs, report, kept):
    tree = Tree(kind, chosen.trees)
    tree.make()
    for settings, options in SETTINGS[kind]:
        with Server(tree, options) as server:
            report.begin(server, settings)
            for name, trial in TRIALS.items():
                if not chosen.trial or name in chosen.trial:
                    trial(server, programs, report, kept)


SIGNALS = (signal.SIGINT, signal.SIGTERM, signal.SIGHUP)


def stop(number, _):
    """Ends the server, too, where its block ends. Another signal does not disturb that."""
    for other in SIGNALS:
        signal.signal(other, signal.SIG_IGN)
    sys.exit(128 + number)


def main():
    chosen = arguments()
    for number in SIGNALS:
        signal.signal(number, stop)
    start = time.monotonic()
    report, kept = Report(), {}
    try:
        programs = Programs(os.environ.get("FLASHBACK", "bin/flashback"), os.environ.get("BINLOG", "bin/binlog"))
        # MySQL first: MariaDB is given the logs that MySQL wrote
        for kind in KINDS.values():
            if not chosen.servers or kind.folder in chosen.servers:
                try_server(kind, chosen, programs, report, kept)
    except ServerError as cause:
        warn(cause)
        report.failed = True
    if report.servers:
        print("", *report.table(), "", sep="\n")
    print(f"{report.count()} trials in {time.monotonic() - start:.0f} seconds")
    return 1 if report.failed else 0


if __name__ == "__main__":
    sys.exit(main())
