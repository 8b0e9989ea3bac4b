#!/usr/bin/env python3
"""Measures the layers below flashback on logs in the page cache, and prints tables; bench/README.md explains them.

    layers.py PROGRAM RUNS TIMES LIMIT OUT

PROGRAM runs RUNS times on each log of the folder OUT, LIMIT seconds at most, and does its work TIMES times in each.
Beside each log lies a file .counts, the line that make_log.py printed. The exit status is 1 where the program and
make_log.py count differently.
"""

import os
import re
import sys

from measure import Best, run
from sums import zlib_of

MAPS, TABLES, MANY = (10_000, 40_000, 160_000), (25_000, 100_000, 400_000), (250_000, 1_000_000, 4_000_000)
CASES = {"maps": MAPS, "tables": TABLES, "transactions": MANY, "statements": MANY,
         "shuffled_maps": MAPS, "small_maps": MAPS, "small_tables": TABLES}
# each index gets its memory anew from the system, as in a run of flashback, however large it is
FRESH_MEMORY = "glibc.malloc.mmap_threshold=131072"
TIME = re.compile(r"(\w+): (\d+) ns by the clock, (\d+) ns on the processor")


class Measured:
    """What the program printed of a log: its counts, and the least seconds of each work, by the clock and on the
    processor; with the figures of cat for the same log."""

    def __init__(self, program, layer, shape, size, settings):
        runs, times, limit, out = settings
        log = os.path.join(out, f"{shape}-{size}.binlog")
        with open(log + ".counts") as file:
            self.length, self.events, self.rows = map(int, file.read().split())
        self.seconds, self.numbers, self.best, self.cat = {}, {}, Best(), Best()
        print("measuring", layer, "of", os.path.basename(log), file=sys.stderr)
        for _ in range(runs):
            why = run(["cat", log], os.devnull, limit, self.cat)
            printed = os.path.join(out, "layers.txt")
            why = why or run([program, layer, log, str(times)], printed, limit, self.best)
            if why:
                sys.exit(f"layers.py: {shape}: {why}")
            with open(printed) as file:
                self.read(file)

    def read(self, lines):
        for line in lines:
            if found := TIME.match(line):
                work, *nanos = found.groups()
                old = self.seconds.get(work, (float("inf"),) * 2)
                self.seconds[work] = tuple(min(a, int(b) / 1e9) for a, b in zip(old, nanos))
            else:
                name, rest = line.split(": ", 1)
                self.numbers[name] = [int(number) for number in re.findall(r"\d+", rest)]

    def expect(self, what, seen, wanted):
        if seen != wanted:
            sys.exit(f"layers.py: {what}: {seen} where make_log.py has {wanted}")


def pair(form, seconds, of):
    """Two cells: by the clock, and on the processor."""
    return " | ".join(form.format(of(each)) for each in seconds)


def print_events(program, settings):
    print("Events, by the clock and on the processor:\n\n"
          "| Log | MB | Events | walking, ns an event | on the processor | copying, GB/s | on the processor | cat, GB/s |\n"
          "|---|---|---|---|---|---|---|---|")
    for shape in ["small_events", "large_events"]:
        of = Measured(program, "events", shape, 100, settings)
        of.expect("events", of.numbers["events"][0], of.events - 1)
        of.expect("bytes", of.numbers["copied"][0], of.length)
        walking = pair("{:.1f}", of.seconds["walking"], lambda s: s * 1e9 / of.events)
        copying = pair("{:.2f}", of.seconds["copying"], lambda s: of.length / s / 1e9)
        print(f"| {shape} | {of.length / 1e6:,.0f} | {of.events:,} | {walking} | {copying} | {of.length / of.cat.wall / 1e9:.2f} |")


def print_rows(program, settings):
    print("\nRows events, by the clock and on the processor:\n\n"
          "| Log | Bytes a row | Work | million rows a second | on the processor | ns a column | on the processor |\n"
          "|---|---|---|---|---|---|---|")
    for columns in [10, 512, 4096]:
        of = Measured(program, "rows", f"columns_{columns}", 100, settings)
        _, _, rows, values = of.numbers["rows events"]
        of.expect("rows", rows, of.rows)
        of.expect("values", values, of.rows * columns)
        both = tuple(map(sum, zip(of.seconds["reading"], of.seconds["reversing"])))
        for work, seconds in [*of.seconds.items(), ("both", both)]:
            speed = pair("{:.3f}", seconds, lambda s: rows / s / 1e6)
            column = pair("{:.2f}", seconds, lambda s: s * 1e9 / values)
            print(f"| columns_{columns} | {of.numbers['reversed'][0] / rows:,.0f} | {work} | {speed} | {column} |")


def print_index(program, settings):
    of = Measured(program, "index", "mixed", 1000, settings)
    entries, mb, once = of.numbers["index"][2], of.length / 1e6, Best()
    # without the bytes that cool the caches between two rounds
    run([program, "index", os.path.join(settings[3], "mixed-1000.binlog"), "0"], os.devnull, settings[2], once)
    by_clock, on_processor = of.seconds["indexing"]
    print(f"\nIndex of a log of {mb:,.0f} MB with {of.events:,} events, of which it has {entries:,}:\n\n"
          "| Of | MB/s by the clock | on the processor | peak memory, MB | beside the log, MB |\n|---|---|---|---|---|\n"
          f"| index | {mb / by_clock:,.0f} | {mb / on_processor:,.0f} | {once.peak / 1e6:,.0f} | {once.peak / 1e6 - mb:,.0f} |\n"
          f"| cat | {mb / of.cat.wall:,.0f} | {mb / of.cat.processor:,.0f} | {of.cat.peak / 1e6:,.0f} | - |")


def print_sums(program, settings):
    of, log = Measured(program, "sums", "mixed", 1000, settings), os.path.join(settings[3], "mixed-1000.binlog")
    number, seconds = zlib_of(log, settings[0])
    of.expect("sum", of.numbers["sum"][0], number)
    theirs, ours = of.length / 1e6 / seconds, of.length / 1e6 / of.seconds["summing"][0]
    print(f"\nCRC-32 of {of.length / 1e6:,.0f} MB: {ours:,.0f} MB/s, {ours / theirs:.2f} of zlib's {theirs:,.0f}")


def print_growth(program, settings):
    print("\nGrowth of the index, milliseconds by the clock and on the processor:\n\n"
          "| Case | n | at n | at 4n | times | at n, on the processor | at 4n | times |\n|---|---|---|---|---|---|---|---|")
    for case, sizes in CASES.items():
        seconds = [Measured(program, "index", case, size, settings).seconds["indexing"] for size in sizes]
        for size, less, more in zip(sizes, seconds, seconds[1:]):
            cells = " | ".join(f"{a * 1e3:,.1f} | {b * 1e3:,.1f} | {b / a:.2f}" for a, b in zip(less, more))
            print(f"| {case} | {size:,} | {cells} |")


def main(program, runs, times, limit, out):
    settings = int(runs), int(times), float(limit), out
    for part in (print_events, print_rows, print_sums, print_index, print_growth):
        if part is print_index:
            os.environ["GLIBC_TUNABLES"] = FRESH_MEMORY
        part(program, settings)
        sys.stdout.flush()


if __name__ == "__main__":
    main(*sys.argv[1:])
