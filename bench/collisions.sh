#!/bin/sh
# Measures flashback --summary on logs of tables whose names have the same hash by one seed. See README.md beside this
# file.
#
#     sh bench/collisions.sh
#
# Variables: FLASHBACK, the program; RUNS, how often it runs; LIMIT, the seconds after which a run is stopped; OUT, the
# folder for logs and outputs.
set -eu
cd "$(dirname "$0")/.."
. bench/logs.sh
FLASHBACK=${FLASHBACK:-bin/flashback} RUNS=${RUNS:-5} LIMIT=${LIMIT:-600} OUT=${OUT:-bench/out}
are_there collisions.sh "$FLASHBACK" || exit 0
make_logs colliding_tables 10000 colliding_tables 40000 small_tables 10000 small_tables 40000

print_machine
# the paths are words of their own, whatever is in them
set -f
IFS=$NEWLINE
exec python3 bench/collisions.py "$FLASHBACK" "$RUNS" "$LIMIT" "$OUT" $logs
