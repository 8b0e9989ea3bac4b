#!/bin/sh
# Measures binlog list, split and sql beside flashback. See README.md beside this file.
#
#     sh bench/commands.sh [SHAPE MB]..
#
# Variables: BINLOG and FLASHBACK, the programs; RUNS, how often each runs; LIMIT, the seconds after which a run is
# stopped; OUT, the folder for logs and outputs.
set -eu
cd "$(dirname "$0")/.."
. bench/logs.sh
are_both_there commands.sh || exit 0
[ $# -gt 0 ] || set -- mixed 100 mixed 1000 one_row 60 one_row 240 many_maps 50 many_events 60
make_logs "$@"

measure_logs bench/commands.py
