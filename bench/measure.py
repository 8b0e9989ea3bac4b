#!/usr/bin/env python3
"""Measures programs on logs in the page cache, and prints tables; bench/README.md says what the columns mean.

    measure.py PLAIN MARIADB FLASHBACK RUNS LIMIT OUT LOG..

PLAIN, MARIADB and FLASHBACK are programs, or empty words where one isn't there. Each runs RUNS times, LIMIT seconds at
most. OUT is the folder for what they write. Beside each LOG lies LOG.counts, the line that make_log.py printed. The
exit status is 1 if flashback and the plain program don't write the same log, or mariadb-binlog doesn't undo the same.
"""

import filecmp
import os
import subprocess
import sys
import tempfile
import threading
import time

NAMES = ["cat", "plain", "streaming", "mariadb-binlog", "flashback"]
# other ways to run flashback, which are compared with the plain program alone
WAYS = ["flashback", "-r", "--summary"]
# memory that flashback may take beside the log and its largest event: for each event, and else
BYTES_AN_EVENT, BYTES_ELSE = 16, 3_000_000


class Best:
    """The least wall and processor seconds of some runs, and the greatest peak of memory in bytes."""

    def __init__(self):
        self.wall = self.processor = float("inf")
        self.peak = 0

    def add(self, wall, usage):
        self.wall = min(self.wall, wall)
        self.processor = min(self.processor, usage.ru_utime + usage.ru_stime)
        self.peak = max(self.peak, usage.ru_maxrss * 1024)


def run(words, out, limit, best):
    """Runs a program once. Answers why it failed, or nothing."""
    with open(out, "wb") as file, tempfile.TemporaryFile() as errors:
        start = time.perf_counter()
        child = subprocess.Popen(words, stdout=file, stderr=errors)
        timer = threading.Timer(limit, child.kill)
        timer.start()
        _, status, usage = os.wait4(child.pid, 0)
        wall = time.perf_counter() - start
        timer.cancel()
        if status == 0:
            best.add(wall, usage)
            return None
        errors.seek(0)
        line = errors.readline(200).decode(errors="replace").strip()
    if wall >= limit:
        return f"stopped after {limit:.0f} s"
    return line or f"exit status {os.waitstatus_to_exitcode(status)}"


def run_all(script, cases, runs, limit):
    """Runs each of the cases, its words, the file that is written, and its best, in turn; ends the script where one fails."""
    for _ in range(runs):
        for words, to, best in cases:
            if to != os.devnull and os.path.isfile(to):
                os.remove(to)
            why = run(words, to, limit, best)
            if why:
                sys.exit(f"{script}: {words[0]}: {why}")


def measure(log, programs, runs, limit, out):
    """The best of each program by name, and why the others have none."""
    best, failed = {name: Best() for name in programs}, {}
    subprocess.run(["cat", log], stdout=subprocess.DEVNULL, check=True)  # now it is in the page cache
    for _ in range(runs):
        # in turn, so that what else the machine does weighs on all alike
        for name, words in programs.items():
            if name in failed:
                continue
            path = os.path.join(out, name + ".undo")
            if os.path.isfile(path):
                os.remove(path)
            named = ["-r", path] if name == "-r" else []
            why = run(words + named + [log], os.devnull if named or name in ("cat", "--summary") else path, limit, best[name])
            if why:
                failed[name] = why
                del best[name]
                print(f"{name}: {why}", file=sys.stderr)
    return best, failed


def largest_event(log):
    """The size of the log's largest event, in bytes. Not by mmap: what this process holds would count for its children."""
    largest, at, file = 0, 4, os.open(log, os.O_RDONLY)
    while size := int.from_bytes(os.pread(file, 4, at + 9), "little"):
        largest, at = max(largest, size), at + size
    os.close(file)
    return largest


def cell(value, form):
    return form.format(value) if value is not None else "-"


def is_same_as_mariadb(undo, text):
    """By a process of its own: a program that is measured starts with the memory of this one as its peak."""
    script = os.path.join(os.path.dirname(__file__), "same_as_mariadb.py")
    return subprocess.run([sys.executable, script, undo, text]).returncode == 0


# how many times as fast as the plain program flashback is at least: what is to be reached in these shapes, less a tenth
LEAST = {"null_rows": 0.9, "half_null": 0.9, "many_events": 0.9, "tiny_rows": 0.9, "repeated_map": 0.9}


class Tables:
    def __init__(self):
        heads = "| ".join(f"{name} " for name in NAMES)
        line = "---|" * (len(NAMES) + 2)
        self.speed = [f"| Log | MB | Events | {heads}| of plain | of mariadb-binlog |", f"|---|{line}---|---|"]
        self.memory = [f"| Log | Most | {heads}|", f"|{line}"]
        self.processor = [f"| Log | MB | {heads}|", f"|{line}"]
        self.ways = ["| Log | MB | -B > OUT | -B -r OUT | --summary |", "|---|---|---|---|---|"]

    def add(self, shape, counts, best):
        size, events, largest = counts
        wall = {name: each.wall for name, each in best.items()}

        def times(name, way="flashback"):
            return wall[name] / wall[way] if way in wall and name in wall else None

        def row(of, form):
            return " | ".join(cell(of(best[name]) if name in best else None, form) for name in NAMES)

        mb = f"{size / 1e6:,.0f}"
        most = (size + largest + BYTES_AN_EVENT * events + BYTES_ELSE) / 1e6
        self.speed.append(f"| {shape} | {mb} | {events:,} | {row(lambda each: size / 1e6 / each.wall, '{:,.0f}')} | "
                          f"{cell(times('plain'), '{:.2f}')} | {cell(times('mariadb-binlog'), '{:.1f}')} |")
        self.memory.append(f"| {shape} | {most:,.0f} | {row(lambda each: each.peak / 1e6, '{:,.0f}')} |")
        self.processor.append(f"| {shape} | {mb} | {row(lambda each: each.processor, '{:.2f}')} |")
        ways = " | ".join(cell(times("plain", way), "{:.2f}") for way in WAYS)
        self.ways.append(f"| {shape} | {mb} | {ways} |")

    def __str__(self):
        return "\n".join(["Speed, MB/s:", "", *self.speed, "", "Peak memory, MB:", "", *self.memory, "",
                          "Processor seconds:", "", *self.processor, "", "Speed, of the plain program's:", "", *self.ways])


def main(plain, mariadb, flashback, runs, limit, out, *logs):
    programs = {"cat": ["cat"], "plain": [plain, "-B"], "streaming": [plain, "--stream"], "mariadb-binlog": [mariadb, "--flashback"],
                "flashback": [flashback, "-B"], "-r": [flashback, "-B"], "--summary": [flashback, "--summary"]}
    programs = {name: words for name, words in programs.items() if words[0]}
    tables, status = Tables(), 0
    for log in logs:
        shape = os.path.basename(log).rsplit("-", 1)[0]
        with open(log + ".counts") as file:
            size, events, _ = map(int, file.read().split())
        print("measuring", os.path.basename(log), file=sys.stderr)
        best, failed = measure(log, programs, int(runs), float(limit), out)
        undo = [os.path.join(out, name + ".undo") for name in ("plain", "flashback", "mariadb-binlog")]
        if "plain" in failed or "streaming" in failed:
            sys.exit(f"measure.py: the plain program failed on {log}")
        if not filecmp.cmp(undo[0], os.path.join(out, "streaming.undo"), shallow=False):
            sys.exit(f"measure.py: the two forms of the plain program don't write the same log for {log}")
        if "flashback" in programs and not ("flashback" in best and filecmp.cmp(undo[0], undo[1], shallow=False)):
            print(f"flashback and the plain program don't write the same log for {log}", file=sys.stderr)
            status = 1
        if "-r" in best and not filecmp.cmp(undo[0], os.path.join(out, "-r.undo"), shallow=False):
            print(f"flashback -r and the plain program don't write the same log for {log}", file=sys.stderr)
            status = 1
        if "mariadb-binlog" in best and not is_same_as_mariadb(undo[0], undo[2]):
            status = 1
        tables.add(shape, (size, events, largest_event(log)), best)
        if "flashback" in best and best["plain"].wall < LEAST.get(shape, 0) * best["flashback"].wall:
            print(f"{shape}: flashback isn't {LEAST[shape]} times as fast as the plain program", file=sys.stderr)
            status = 1
    print(tables)
    return status


if __name__ == "__main__":
    sys.exit(main(*sys.argv[1:]))
