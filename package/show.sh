#!/bin/sh
# Shows the rows of each log of examples/show with a program, and compares what it prints:
#     package/show.sh BINLOG
# The logs are servers'. Each NAME.txt has the rows by the values that were inserted, with the positions and the times of NAME.binlog.
set -eu
binlog=$1
logs=examples/show
work=$(mktemp -d)
trap 'rm -rf "$work"' EXIT

for log in "$logs"/*.binlog; do
    "$binlog" show --utc "$log" > "$work/printed"
    # what isn't known of statements is on lines of its own
    grep -v ' not shown: ' "$work/printed" > "$work/rows"
    if ! diff -u "${log%.binlog}.txt" "$work/rows" >&2; then
        echo "package/show.sh: $log" >&2
        exit 1
    fi
done
