#!/bin/sh
# Refuses each request for memory of a run in turn, also those of the parser of arguments, which no test can refuse:
#     package/refused.sh flashback|binlog PROGRAM
# Each such run ends with status 1 and one line, writes nothing else, and creates no result file; or it ends as the run of
# which no request is refused. Prints one line if all is well.
set -eu
cd "$(dirname "$0")/.."
program=$1
if ! command -v "${CC:-cc}" > /dev/null; then
    echo "$program: without a C compiler no request for memory is refused"
    exit 0
fi
work=$(mktemp -d)
trap 'rm -rf "$work"' EXIT
cp "$2" "$work/$program"
cp examples/mysql/multi_table.binlog examples/mysql/crc32_closed.binlog examples/later/updated_since.binlog "$work"
"${CC:-cc}" -O -shared -fPIC -o "$work/refuse.so" package/refuse.c
cd "$work"
total=0
all=0

# runs the program with these arguments, whose request of this number is refused; none where it is 0
run_refused() {
    rm -f result refused
    status=0
    REFUSE=$1 REFUSED=refused
    shift
    LD_PRELOAD=./refuse.so REFUSE=$REFUSE REFUSED=$REFUSED "./$program" "$@" > output 2> errors || status=$?
}

# whether the run ended as it should where memory is refused
is_out_of_memory() {
    [ "$status" -eq 1 ] && [ ! -s output ] && [ ! -e result ] && [ "$(wc -l < errors)" -eq 1 ] \
        && grep -q "^$program: OutOfMemory\$\|^$program: OutOfMemory: " errors
}

# whether the run ended as the one of which no request is refused: a list of the parser may ask again for less
is_the_same() {
    [ "$status" -eq "$wanted" ] && cmp -s output whole_output && cmp -s errors whole_errors \
        && { [ ! -e whole_result ] || cmp -s result whole_result; }
}

# refuses each request of a run in turn, which ends with this status where none is refused
refuse_each() {
    wanted=$1
    shift
    rm -f whole_result
    run_refused 0 "$@"
    mv output whole_output
    mv errors whole_errors
    [ ! -e result ] || mv result whole_result
    number=1
    ended=$status
    while run_refused "$number" "$@" && [ -e refused ]; do
        if ! is_out_of_memory && ! is_the_same; then
            echo "package/refused.sh: request $number of $program $*: status $status" >&2
            cat errors >&2
            exit 1
        fi
        [ "$status" -ne 1 ] || total=$((total + 1))
        number=$((number + 1))
    done
    if [ "$ended" -ne "$wanted" ] || [ "$number" -lt 10 ]; then
        echo "package/refused.sh: $program $*: status $ended, with $number requests" >&2
        exit 1
    fi
    all=$((all + number - 1))
}

of_flashback() {
    refuse_each 0 -B multi_table.binlog
    refuse_each 0 --forward --sql -d d -T t -j 4 --stop-position 596 multi_table.binlog
    refuse_each 0 --summary -r result multi_table.binlog
    refuse_each 0 --help
    refuse_each 0 --version
    refuse_each 2 -B --unknown multi_table.binlog
    refuse_each 2 -B -j x multi_table.binlog
    refuse_each 2 multi_table.binlog
}

of_binlog() {
    refuse_each 0 plain crc32_closed.binlog
    refuse_each 0 plain --force -r result crc32_closed.binlog
    refuse_each 0 list --json -d d -T t -j 4 --start-datetime "2026-01-01 00:00:00" multi_table.binlog
    refuse_each 0 list --utc --sort rows crc32_closed.binlog
    refuse_each 0 show --utc --at 811 --at 1300 -T shop.orders --all-columns crc32_closed.binlog
    refuse_each 0 undo --anyway --keep-times -j 811 --stop-position 1215 -d shop -T orders -r result --force crc32_closed.binlog
    refuse_each 0 undo --dry-run -j 811 --stop-position 1215 crc32_closed.binlog
    refuse_each 1 undo -j 198 --stop-position 512 crc32_closed.binlog
    refuse_each 0 undo --leave --utc --keep-times -j 543 --stop-position 5991 -r result updated_since.binlog
    refuse_each 0 undo --merge --utc --keep-times -j 543 --stop-position 5991 -r result updated_since.binlog
    refuse_each 0 redo --binlog -j 811 --stop-position 1215 crc32_closed.binlog
    refuse_each 1 undo --anyway -T none crc32_closed.binlog
    refuse_each 0 split --size 1024 multi_table.binlog
    refuse_each 0 sql --keep-times --rewrite-db d:e --rewrite-db d:g multi_table.binlog
    refuse_each 1 sql --rewrite-db f:g multi_table.binlog
    refuse_each 0 --help
    refuse_each 0 sql --help
    refuse_each 2
    refuse_each 2 other multi_table.binlog
    refuse_each 2 list -j x multi_table.binlog
    refuse_each 2 list --sort size multi_table.binlog
    refuse_each 2 plain multi_table.binlog "$(printf 'a\tb')"
}

"of_$program"
echo "$program: $all requests for memory are refused, each in turn; $total of them end the run"
