#!/usr/bin/env python3
"""Measures binlog undo on logs with checksums in the page cache, and prints two tables; bench/README.md explains them.

    later.py BINLOG FLASHBACK RUNS LIMIT OUT LOG..

Each program runs RUNS times, LIMIT seconds at most; OUT is the folder for what is written. Each LOG is called
SHAPE-MB-sums.binlog; beside it are LOG.counts, the line that make_log.py printed, and SHAPE-MB.binlog, the same log
without checksums. The exit status is 1 if undo writes another log than flashback, after the format description.
"""

import json
import os
import subprocess
import sys

from measure import Best, run_all

# where the second event begins
FIRST = 120
# of how many transactions near the log's front one is looked for that no later one touches
FRONT = 50


def first_untouched(binlog, log):
    """The options for the first transaction that can be undone though all later ones are looked at."""
    with subprocess.Popen([binlog, "list", "--json", log], stdout=subprocess.PIPE, text=True) as lister:
        units = [json.loads(lister.stdout.readline()) for _ in range(FRONT)]
        lister.kill()
    for unit in units:
        part = ["-j", str(unit["start"]), "--stop-position", str(unit["stop"])]
        if subprocess.run([binlog, "undo", *part, "--dry-run", log], capture_output=True).returncode == 0:
            return part
    sys.exit(f"later.py: {log}: later transactions touch each of the first {FRONT}")


def main(binlog, flashback, runs, limit, out, *logs):
    runs, limit, status = int(runs), float(limit), 0
    look = ["| Log | MB | flashback --summary of the log without checksums, MB/s | undo of a transaction near the front | of summary | Most memory, MB | undo |",
            "|---|---|---|---|---|---|---|"]
    whole = ["| Log | MB | flashback -B of the log without checksums, s | undo --binlog of all | times as long | Memory, MB |", "|---|---|---|---|---|---|"]
    for log in logs:
        with open(log + ".counts") as file:
            size = int(file.read().split()[0])
        made = log.removesuffix("-sums.binlog") + ".binlog"
        print("measuring", os.path.basename(log), file=sys.stderr)
        part = first_untouched(binlog, log)
        undos = [os.path.join(out, name) for name in ("flashback.undo", "binlog.undo")]
        summary, looked, backward, undone = (Best() for _ in range(4))
        run_all("later.py", (([flashback, "--summary", made], os.devnull, summary), ([binlog, "undo", *part, "--dry-run", log], os.devnull, looked),
                             ([flashback, "-B", made], undos[0], backward),
                             ([binlog, "undo", "--binlog", "--size", "4294967295", log], undos[1], undone)), runs, limit)
        if subprocess.run(["cmp", "-i", str(FIRST), *undos]).returncode:
            status = 1
        mb, plain = size / 1e6, os.path.getsize(made)
        shape = os.path.basename(made).removesuffix(".binlog")
        look.append(f"| {shape} | {mb:,.0f} | {plain / 1e6 / summary.wall:,.0f} | {mb / looked.wall:,.0f} "
                    f"| {(mb / looked.wall) / (plain / 1e6 / summary.wall):.2f} | {size / 1e6 + 3:,.0f} | {looked.peak / 1e6:,.0f} |")
        whole.append(f"| {shape} | {mb:,.0f} | {backward.wall:.2f} | {undone.wall:.2f} | {undone.wall / backward.wall:.2f} | {undone.peak / 1e6:,.0f} |")
    print("\n".join([*look, "", *whole]))
    return status


if __name__ == "__main__":
    sys.exit(main(*sys.argv[1:]))
