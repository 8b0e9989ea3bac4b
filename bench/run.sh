#!/bin/sh
# Measures flashback beside cat, a plain program and mariadb-binlog. See README.md beside this file.
#
#     sh bench/run.sh [SHAPE MB]..
#
# Variables: FLASHBACK, the program that is measured; RUNS, how often each program runs; LIMIT, the seconds after which
# a run is stopped; OUT, the folder for logs and outputs.
set -eu
cd "$(dirname "$0")/.."
. bench/logs.sh
FLASHBACK=${FLASHBACK:-bin/flashback} RUNS=${RUNS:-3} LIMIT=${LIMIT:-600} OUT=${OUT:-bench/out}
PLAIN=bench/plain/target/release/plain
[ $# -gt 0 ] || set -- mixed 10 mixed 100 mixed 1000 \
    version_one 250 one_row 250 wide 250 many_maps 50 many_tables 100 many_statements 250 \
    null_rows 250 half_null 250 many_events 50 tiny_rows 8 repeated_map 25
mkdir -p "$OUT"

cargo build --quiet --release --offline --manifest-path bench/plain/Cargo.toml
# the plain program has to be right before anything is compared with it: this log's rows event, whose type is the byte
# at 200, is to become a delete (32, octal 40), and nothing else is to change
WORKED=examples/insert_one_row.binlog
{ head -c 200 $WORKED; printf '\040'; tail -c +202 $WORKED; } > "$OUT/worked"
$PLAIN -B $WORKED | cmp - "$OUT/worked"

make_logs "$@"

[ -x "$FLASHBACK" ] || { echo "run.sh: $FLASHBACK isn't there, so it isn't measured; make builds it" >&2; FLASHBACK=; }
MARIADB=$(command -v mariadb-binlog) || echo "run.sh: mariadb-binlog isn't installed, so it isn't measured" >&2
print_machine
# the paths are words of their own, whatever is in them
set -f
IFS=$NEWLINE
exec python3 bench/measure.py "$PLAIN" "$MARIADB" "$FLASHBACK" "$RUNS" "$LIMIT" "$OUT" $logs
