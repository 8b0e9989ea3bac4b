#!/bin/sh
# Measures binlog undo on logs with checksums, beside flashback on the logs without. See README.md beside this file.
#
#     sh bench/later.sh [SHAPE MB]..
#
# Variables: BINLOG and FLASHBACK, the programs; RUNS, how often each runs; LIMIT, the seconds after which a run is
# stopped; OUT, the folder for logs and outputs.
set -eu
cd "$(dirname "$0")/.."
. bench/logs.sh
are_both_there later.sh || exit 0
[ $# -gt 0 ] || set -- mixed 100 mixed 1000 one_row 60 one_row 250
make_logs --sums "$@"

measure_logs bench/later.py
