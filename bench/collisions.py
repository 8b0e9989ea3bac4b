#!/usr/bin/env python3
"""Measures flashback --summary on logs in the page cache by turns, and prints a table; bench/README.md explains it.

    collisions.py FLASHBACK RUNS LIMIT OUT LOG..

Each LOG is run RUNS times, LIMIT seconds at most; OUT is the folder for what is written. The logs come in pairs, of which the
second has four times as many tables. The exit status is 1 if it takes more than 5 times as long on one.
"""

import os
import sys

from measure import Best, run_all

MOST = 5


def main(flashback, runs, limit, out, *logs):
    cases = [([flashback, "--summary", log], os.path.join(out, "summary.txt"), Best()) for log in logs]
    run_all("collisions.py", cases, int(runs), float(limit))
    status = 0
    print("| Log | Processor seconds | of four times as many tables | times |\n|---|---|---|---|")
    for small, large in zip(cases[::2], cases[1::2]):
        times = large[2].processor / small[2].processor
        print(f"| {os.path.basename(small[0][2])} | {small[2].processor:.3f} | {large[2].processor:.3f} | {times:.2f} |")
        status |= times > MOST
    return status


if __name__ == "__main__":
    sys.exit(main(*sys.argv[1:]))
