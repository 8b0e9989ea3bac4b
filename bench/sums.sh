#!/bin/sh
# Measures binlog plain and list on logs with checksums, beside cat, zlib and flashback. See README.md beside this file.
#
#     sh bench/sums.sh [SHAPE MB]..
#
# Variables: BINLOG and FLASHBACK, the programs; RUNS, how often each runs; LIMIT, the seconds after which a run is
# stopped; OUT, the folder for logs and outputs.
set -eu
cd "$(dirname "$0")/.."
. bench/logs.sh
are_both_there sums.sh || exit 0
[ $# -gt 0 ] || set -- mixed 10 mixed 100 mixed 1000 one_row 250
make_logs --sums "$@"

measure_logs bench/sums.py
