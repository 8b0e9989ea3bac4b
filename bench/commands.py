#!/usr/bin/env python3
"""Measures binlog list, split and sql on logs in the page cache, and prints a table; bench/README.md explains it.

    commands.py BINLOG FLASHBACK RUNS LIMIT OUT LOG..

Each program runs RUNS times, LIMIT seconds at most; OUT is the folder for what is written. Beside each LOG lies
LOG.counts, the line that make_log.py printed. The exit status is 1 if a log that was cut has other changes than the log, or
if the events in the SQL aren't those of a log that was cut at the same size.
"""

import base64
import hashlib
import os
import struct
import subprocess
import sys

from measure import Best, run_all

SIZE = "1000000"  # at which statements are cut


def lines_of(words):
    return subprocess.run(words, stdout=subprocess.PIPE, check=True).stdout.splitlines()


def events_of_sql(file):
    """The hash of the events between the quotes of each BINLOG but the first, and how many bytes they have."""
    digest, size, lines = hashlib.sha256(), 0, None
    binlogs = 0
    for line in file:
        if line == b"BINLOG '\n":
            lines, binlogs = [], binlogs + 1
        elif line == b"';\n":
            text, lines = base64.b64decode(b"".join(lines), validate=True), None
            if binlogs > 1:
                digest.update(text)
                size += len(text)
        elif lines is not None:
            lines.append(line[:-1])
    return digest.hexdigest(), size


def events_of_log(log):
    """The same of the table maps and rows events of a log."""
    digest, size = hashlib.sha256(), 0
    log.seek(4)
    while header := log.read(19):
        length, = struct.unpack_from("<I", header, 9)
        body = log.read(length - 19)
        if header[4] in (19, 23, 24, 25, 30, 31, 32):
            digest.update(header)
            digest.update(body)
            size += length
    return digest.hexdigest(), size


def main(binlog, flashback, runs, limit, out, *logs):
    runs, limit, status = int(runs), float(limit), 0
    print("| Log | MB | Events | flashback --summary, MB/s | binlog list | of summary | flashback --forward | binlog split "
          "| of forward | binlog sql | of forward | Memory, MB: list | split | sql |\n|---|---|---|---|---|---|---|---|---|---|---|---|---|---|")
    for log in logs:
        with open(log + ".counts") as file:
            size, events, _ = map(int, file.read().split())
        cut, text = (os.path.join(out, name) for name in ("cut.binlog", "cut.sql"))
        print("measuring", os.path.basename(log), file=sys.stderr)
        summary, listed, forward, split, sql = (Best() for _ in range(5))
        run_all("commands.py", (([flashback, "--summary", log], os.devnull, summary), ([binlog, "list", log], os.devnull, listed),
                                ([flashback, "--forward", log], cut, forward),
                                ([binlog, "sql", "--keep-times", "--size", SIZE, log], text, sql),
                                ([binlog, "split", "--size", SIZE, log], cut, split)),
                runs, limit)
        # all but the number of statements, and the order of tables, which is that of their first maps
        before, after = (lines_of([flashback, "--summary", file]) for file in (log, cut))
        if before[0] != after[0] or sorted(before[2:]) != sorted(after[2:]):
            status = 1
        with open(cut, "rb") as file, open(text, "rb") as lines:
            if events_of_log(file) != events_of_sql(lines):
                status = 1
        mb = size / 1e6
        print(f"| {os.path.basename(log).removesuffix('.binlog')} | {mb:,.0f} | {events:,} | {mb / summary.wall:,.0f} | {mb / listed.wall:,.0f} "
              f"| {summary.wall / listed.wall:.2f} | {mb / forward.wall:,.0f} | {mb / split.wall:,.0f} | {forward.wall / split.wall:.2f} "
              f"| {mb / sql.wall:,.0f} | {forward.wall / sql.wall:.2f} "
              f"| {listed.peak / 1e6:,.0f} | {split.peak / 1e6:,.0f} | {sql.peak / 1e6:,.0f} |")
    return status


if __name__ == "__main__":
    sys.exit(main(*sys.argv[1:]))
