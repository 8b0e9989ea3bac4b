#!/bin/sh
# Compares what a program reports of each log of the examples with what it lists of it:
#     package/report.sh BINLOG
# The numbers of transactions and rows have to be the same, and the page has to be whole and to need nothing else.
set -eu
binlog=$1
work=$(mktemp -d)
trap 'rm -rf "$work"' EXIT

differs() {
    echo "package/report.sh: $1" >&2
    exit 1
}

# the sum of a number in each line of a list
sum_of() {
    sed "s/\"$1\":/\n&/g" "$work/list" | sed -n "s/^\"$1\":\([0-9]*\).*/\1/p" | awk '{ sum += $1 } END { printf "%.0f", sum }'
}

for log in examples/*/*.binlog; do
    status=0
    "$binlog" list --utc --json "$log" > "$work/list" 2> "$work/errors" || status=$?
    reported=0
    "$binlog" report --utc --text "$log" > "$work/lines" 2> "$work/told" || reported=$?
    [ "$reported" = "$status" ] || differs "$log: list ends with $status, and report with $reported"
    [ -s "$work/lines" ] || continue
    units=$(grep -c '^{"start":' "$work/list" || :)
    refused=$(grep -c '"fault":' "$work/list" || :)
    for wanted in "transactions $((units - refused)), not undoable $refused" \
        "rows inserted $(sum_of inserts), updated $(sum_of updates), deleted $(sum_of deletes)"; do
        grep -qxF "$wanted" "$work/lines" || differs "$log: there is no line: $wanted"
    done
    "$binlog" report --utc "$log" > "$work/page" 2> "$work/told" || [ "$status" != 0 ] || differs "$log: no page"
    rm -f "$work/file"
    "$binlog" report --utc "$log" -r "$work/file" 2> "$work/told" || [ "$status" != 0 ] || differs "$log: no file"
    cmp "$work/page" "$work/file" >&2 || differs "$log: the file isn't the page"
    ends=$(sed -n '1p;$p' "$work/page" | tr '\n' ' ')
    [ "$ends" = '<!DOCTYPE html> </html> ' ] || differs "$log: the page isn't whole"
    ! grep -E 'src=|url\(|<link|@import' "$work/page" >&2 || differs "$log: the page needs something else"
done
