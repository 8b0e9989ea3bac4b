#!/usr/bin/env python3
"""Measures binlog plain and list on logs with checksums in the page cache, and prints a table; bench/README.md explains it.

    sums.py BINLOG FLASHBACK RUNS LIMIT OUT LOG..

Each program runs RUNS times, LIMIT seconds at most; OUT is the folder for what is written. Each LOG is called
SHAPE-MB-sums.binlog; beside it lie LOG.counts, the line that make_log.py printed, and SHAPE-MB.binlog, the same log
without sums. The exit status is 1 if the plain log is another behind its format description.
"""

import mmap
import os
import subprocess
import sys
import time
import zlib

from measure import Best, run_all

FIRST = 120           # where the second event begins
MOST_BESIDE = 2 << 20  # bytes that binlog plain may take beside the log and the plain log


def print_zlib(log, runs):
    """zlib's CRC-32 of the log's bytes, at once, and the least seconds that it takes."""
    with open(log, "rb") as file, mmap.mmap(file.fileno(), 0, access=mmap.ACCESS_READ) as text:
        least = float("inf")
        for _ in range(int(runs)):
            start = time.perf_counter()
            number = zlib.crc32(text)
            least = min(least, time.perf_counter() - start)
    print(number, least)


def zlib_of(log, runs):
    """The same, by a process of its own: a program that is measured starts with the memory of this one as its peak."""
    words = [sys.executable, os.path.abspath(__file__), "--zlib", log, str(runs)]
    number, seconds = subprocess.run(words, stdout=subprocess.PIPE, check=True, text=True).stdout.split()
    return int(number), float(seconds)


def main(binlog, flashback, runs, limit, out, *logs):
    runs, limit, status = int(runs), float(limit), 0
    print("| Log | MB | Events | cat, MB/s | zlib's sum of its bytes | binlog plain | flashback --summary of the plain log "
          "| plain, of summary | Most memory, MB | binlog plain | binlog list, MB/s | of list of the plain log |\n"
          "|---|---|---|---|---|---|---|---|---|---|---|---|")
    for log in logs:
        with open(log + ".counts") as file:
            size, events, _ = map(int, file.read().split())
        plain = os.path.join(out, "plain.binlog")
        print("measuring", os.path.basename(log), file=sys.stderr)
        cat, ours, summary, listed, unsummed = (Best() for _ in range(5))
        run_all("sums.py", ((["cat", log], os.devnull, cat), ([binlog, "plain", log], plain, ours),
                            ([flashback, "--summary", plain], os.devnull, summary), ([binlog, "list", log], os.devnull, listed),
                            ([binlog, "list", plain], os.devnull, unsummed)), runs, limit)
        made = log.removesuffix("-sums.binlog") + ".binlog"
        if subprocess.run(["cmp", "-i", str(FIRST), plain, made]).returncode:
            status = 1
        written = os.path.getsize(plain)
        mb = size / 1e6
        print(f"| {os.path.basename(made).removesuffix('.binlog')} | {mb:,.0f} | {events:,} | {mb / cat.wall:,.0f} "
              f"| {mb / zlib_of(log, runs)[1]:,.0f} | {mb / ours.wall:,.0f} | {written / 1e6 / summary.wall:,.0f} "
              f"| {(mb / ours.wall) / (written / 1e6 / summary.wall):.2f} | {(size + MOST_BESIDE) / 1e6:,.0f} | {ours.peak / 1e6:,.0f} "
              f"| {mb / listed.wall:,.0f} | {unsummed.wall / listed.wall:.2f} |")
    return status


if __name__ == "__main__":
    sys.exit(print_zlib(*sys.argv[2:]) if sys.argv[1:2] == ["--zlib"] else main(*sys.argv[1:]))
