#!/bin/sh
# Measures the layers below flashback, one by one. See README.md beside this file.
#
#     sh bench/layers.sh
#
# Variables: LAYERS, the program that measures; RUNS, how often it runs on each log; TIMES, how often it does its work
# in each run; LIMIT, the seconds after which a run is stopped; OUT, the folder for logs.
set -eu
cd "$(dirname "$0")/.."
. bench/logs.sh
LAYERS=${LAYERS:-bin/bench_layers} RUNS=${RUNS:-3} TIMES=${TIMES:-5} LIMIT=${LIMIT:-600} OUT=${OUT:-bench/out}
mkdir -p "$OUT"
[ -x "$LAYERS" ] || { echo "layers.sh: $LAYERS isn't there, so it isn't measured; make $LAYERS builds it" >&2; exit 0; }

set -- small_events 100 large_events 100 columns_10 100 columns_512 100 columns_4096 100 mixed 1000
for case in maps shuffled_maps small_maps; do
    set -- "$@" $case 10000 $case 40000 $case 160000
done
for case in tables small_tables; do
    set -- "$@" $case 25000 $case 100000 $case 400000
done
for case in transactions statements; do
    set -- "$@" $case 250000 $case 1000000 $case 4000000
done
while [ $# -gt 0 ]; do
    make_log "$1" "$2"
    shift 2
done

print_machine
exec python3 bench/layers.py "$LAYERS" "$RUNS" "$TIMES" "$LIMIT" "$OUT"
