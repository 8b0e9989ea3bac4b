#!/bin/sh
# Undoes a log that a MySQL server wrote, shows its events before and after, and undoes the undoing.
# Then tries to undo the log without its last byte, which is refused.
# Then lists and undoes a log with checksums, by way of the same log without; without its last byte it is refused too.
# At last cuts the log that undoes the first one to a size that its statement doesn't exceed, and prints it as SQL.
# Arguments: the program, the log, the file for the new log, the program for logs with checksums, and such a log.
set -eu
program=$1 log=$2 undo=$3 binlog=$4 summed=$5
here=$(dirname "$0")

events() {
    od -An -v -tu1 "$1" | awk -f "$here/events.awk"
}

echo "A MySQL server wrote $log for:"
echo "    update d.k join d.t on k.c=t.a set k.b=\"z\", t.a=t.a+1"
echo "Its events, each with its position, its size and, of rows, the bytes of bitmaps and images:"
events "$log"
echo
echo "\$ $program -B $log > $undo"
"$program" -B "$log" > "$undo"
echo "The log that undoes it: rows events and rows from the last to the first, before and after exchanged:"
events "$undo"
echo
echo "\$ $program -B $undo     (undoing the undoing)"
echo "\$ $program --forward $log     (the changes themselves, in normal form)"
"$program" -B "$undo" > "$undo.twice"
"$program" --forward "$log" > "$undo.normal"
if ! cmp "$undo.twice" "$undo.normal"; then
    echo "The demo failed: undoing twice should give the normal form." >&2
    exit 1
fi
if cmp -s "$undo" "$undo.normal"; then
    echo "The demo failed: the log that undoes should differ from the normal form." >&2
    exit 1
fi
echo "Both are the same, byte for byte."
rm -f "$undo.twice" "$undo.normal"

# the log without its last byte
cut=$undo.cut
without_last_byte() {
    head -c "$(($(wc -c < "$1") - 1))" "$1" > "$cut"
}

# runs what stands behind the first word: it has to end with 1, to write nothing, and to print one line, which begins so
is_refused() {
    line=$1
    shift
    status=0
    "$@" > "$cut.output" 2> "$cut.errors" || status=$?
    cat "$cut.errors"
    if [ "$status" -ne 1 ] || [ -s "$cut.output" ] || [ "$(wc -l < "$cut.errors")" -ne 1 ] \
        || ! grep -q "^$line" "$cut.errors"; then
        echo "The demo failed: a log that is refused should write nothing but one line that says why." >&2
        exit 1
    fi
    echo "Nothing is written, and the exit status is 1."
}

echo
echo "\$ $program -B $cut     (the log without its last byte)"
without_last_byte "$log"
is_refused "flashback: CutEvent at " "$program" -B "$cut"

plain=$undo.plain
rm -f "$plain"
echo
echo "A server at its defaults wrote $summed, with checksums:"
echo "\$ $program -B $summed"
is_refused "flashback: Checksums at 4\$" "$program" -B "$summed"
echo "\$ $binlog plain $cut     (that log without its last byte)"
without_last_byte "$summed"
is_refused "binlog: CutEvent at " "$binlog" plain "$cut"
echo "\$ $binlog plain $summed -r $plain"
"$binlog" plain "$summed" -r "$plain"
echo "\$ $binlog list --utc $plain"
"$binlog" list --utc "$plain"
echo "\$ $program --summary $plain"
"$program" --summary "$plain"
"$program" -B -r "$undo.summed" "$plain"
"$program" -B -r "$undo.twice" "$undo.summed"
"$program" --forward -r "$undo.normal" "$plain"
if ! cmp "$undo.twice" "$undo.normal"; then
    echo "The demo failed: undoing the plain log twice should give its normal form." >&2
    exit 1
fi
echo "Undone, and undone again: the same as its changes in normal form, byte for byte."
echo "\$ $binlog split --size 1024 $undo     (its statement has fewer bytes, so it stays whole)"
"$binlog" split --size 1024 "$undo" > "$undo.split"
"$program" --summary "$undo"
"$program" --summary "$undo.split"
"$program" -B --sql "$undo" > "$undo.normal"
if ! "$program" -B --sql "$undo.split" | cmp - "$undo.normal"; then
    echo "The demo failed: the log that is cut should be undone as it was." >&2
    exit 1
fi
echo "Undoing either makes the same changes."
echo "\$ $binlog sql --keep-times $undo     (the same as SQL, which the client of a server runs)"
"$binlog" sql --keep-times "$undo"
if "$binlog" sql --keep-times "$undo" | tail -n 1 | grep -qv "^SELECT @undo_end "; then
    echo "The demo failed: the SQL should end with how the transaction ended." >&2
    exit 1
fi
rm -f "$plain" "$undo.split" "$undo.summed" "$undo.twice" "$undo.normal" "$cut" "$cut.output" "$cut.errors"
