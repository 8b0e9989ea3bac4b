# For the scripts beside this file: makes logs, each once.

NEWLINE='
'

# make_log SHAPE SIZE [--sums]: makes the log if it isn't there or is older than the generator, and leaves its path in log
make_log() {
    log=$OUT/$1-$2${3+-sums}.binlog
    if [ ! -s "$log.counts" ] || [ bench/make_log.py -nt "$log.counts" ]; then
        echo "making $log" >&2
        python3 bench/make_log.py ${3+"$3"} "$1" "$2" "$log" > "$OUT/counts"
        mv "$OUT/counts" "$log.counts"
    fi
}

# make_logs [--sums] SHAPE SIZE..: makes the logs, with --sums each with checksums too, and leaves the paths in logs, a
# line each: with --sums those of the logs with checksums
make_logs() {
    logs= sums=
    if [ "$1" = --sums ]; then
        sums=$1
        shift
    fi
    [ $(($# % 2)) -eq 0 ] || { echo "${0##*/}: a size in MB for each shape is wanted" >&2; exit 2; }
    mkdir -p "$OUT"
    while [ $# -gt 0 ]; do
        make_log "$1" "$2"
        [ -z "$sums" ] || make_log "$1" "$2" "$sums"
        logs=$logs$log$NEWLINE
        shift 2
    done
}

# the line that heads the figures
print_machine() {
    echo "$(nproc) processors, $(sed -n 's/^model name[^:]*: //p' /proc/cpuinfo | head -n 1); best of $RUNS runs"
    echo
}

# are_there SCRIPT PROGRAM..: the programs can be run
are_there() {
    script=$1
    shift
    for program in "$@"; do
        [ -x "$program" ] || { echo "$script: $program isn't there, so nothing is measured; make builds it" >&2; return 1; }
    done
}

# are_both_there SCRIPT: both programs can be run. Sets the variables of a script that measures them, unless they are set
are_both_there() {
    BINLOG=${BINLOG:-bin/binlog} FLASHBACK=${FLASHBACK:-bin/flashback} RUNS=${RUNS:-3} LIMIT=${LIMIT:-600} OUT=${OUT:-bench/out}
    are_there "$1" "$BINLOG" "$FLASHBACK"
}

# measure_logs MEASURE: measures both programs on the logs, by a script of Python
measure_logs() {
    print_machine
    # the paths are words of their own, whatever is in them
    set -f
    IFS=$NEWLINE
    exec python3 "$1" "$BINLOG" "$FLASHBACK" "$RUNS" "$LIMIT" "$OUT" $logs
}
