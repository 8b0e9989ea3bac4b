#!/bin/sh
# Undoes the mistake in each log of examples/later with a program, and compares what it prints:
#     package/later.sh BINLOG
# The logs are a server's. The numbers of rows and the positions that are expected are those of the server's own list of them.
set -eu
case $1 in
    /*) binlog=$1 ;;
    *) binlog=$PWD/$1 ;;
esac
logs=$PWD/examples/later
work=$(mktemp -d)
trap 'rm -rf "$work"' EXIT
cd "$work"

# undoes STATUS LOG START STOP THREAD: what is printed is wanted on standard input, where the transaction is chosen by its positions, and where
# it is chosen by its thread
undoes() {
    cp "$logs/$2" binlog.000042
    rm -f undo.sql
    status=0
    "$binlog" undo --utc --keep-times -j "$3" --stop-position "$4" binlog.000042 -r undo.sql > printed 2>&1 || status=$?
    cat > wanted
    rm -f thread.sql
    of_thread=0
    "$binlog" undo --utc --keep-times --thread "$5" binlog.000042 -r thread.sql > of_thread 2>&1 || of_thread=$?
    if [ "$of_thread" -ne "$1" ] || ! diff -u wanted of_thread >&2; then
        echo "package/later.sh: $2: status $of_thread by the thread" >&2
        exit 1
    fi
    if [ "$status" -ne "$1" ] || ! diff -u wanted printed >&2; then
        echo "package/later.sh: $2: status $status" >&2
        exit 1
    fi
    if [ "$status" -eq 0 ]; then
        "$binlog" undo --anyway --keep-times -j "$3" --stop-position "$4" binlog.000042 2> /dev/null | cmp - undo.sql
        cmp thread.sql undo.sql
        "$binlog" undo --anyway --keep-times --thread "$5" binlog.000042 2> /dev/null | cmp - undo.sql
    elif [ -e undo.sql ] || [ -e thread.sql ]; then
        echo "package/later.sh: $2: a refused undo was written" >&2
        exit 1
    fi
}

undoes 0 deleted_orders.binlog 504 6102 13 << 'END'
undoes 1 transaction of binlog.000042: `shop`.`orders` inserts 40; `shop`.`order_lines` inserts 80
looked at 6 later transactions, up to 8483 of binlog.000042: none changes these rows
binlog.000042 goes on in binlog.000003: give that as the next --later
END
undoes 1 updated_since.binlog 543 5991 47 << 'END'
binlog.000042 6221 2026-11-26 04:11:00 `shop`.`customers`: update
binlog.000042 6568 2026-11-26 04:12:00 `shop`.`customers`: update
binlog.000042 6915 2026-11-26 04:13:00 `shop`.`customers`: update
binlog.000042 7264 2026-11-26 04:14:00 `shop`.`customers`: update
binlog.000042 7613 2026-11-26 04:15:00 `shop`.`customers`: update
binlog.000042 7962 2026-11-26 04:16:00 `shop`.`customers`: update
binlog.000042 8311 2026-11-26 04:17:00 `shop`.`customers`: update
binlog.000042 8660 2026-11-26 04:18:00 `shop`.`customers`: update
binlog.000042 9009 2026-11-26 04:19:00 `shop`.`customers`: update
binlog.000042 9358 2026-11-26 04:20:00 `shop`.`customers`: update
binlog.000042 9707 2026-11-26 04:21:00 `shop`.`customers`: update
binlog.000042 10056 2026-11-26 04:22:00 `shop`.`customers`: update
binlog.000042 10396 2026-11-26 04:30:00 `shop`.`customers`: delete
binlog: ChangedSince: 13 rows that would be undone were changed since: undo these later changes first; --merge keeps them and undoes the rest, --leave undoes the other rows alone, and --anyway overwrites these
END
undoes 1 altered_since.binlog 499 1957 61 << 'END'
binlog.000042 1957: may change these tables, and can't be looked into
binlog: UnknownSince: what came later may have changed these tables: give --anyway if it left these rows as they were
END

# undoes_rest OPTION LOG THREAD START STOP: what is printed where some rows were changed since, whether the transaction is chosen by its thread or by its
# positions
undoes_rest() {
    cp "$logs/$2" binlog.000042
    cat > wanted
    rm -f undo.sql
    "$binlog" undo --utc --keep-times "$1" --thread "$3" binlog.000042 -r undo.sql > printed 2>&1
    diff -u wanted printed >&2
    "$binlog" undo --utc --keep-times "$1" -j "$4" --stop-position "$5" binlog.000042 2> printed | cmp - undo.sql
    diff -u wanted printed >&2
}

undoes_rest --leave updated_since.binlog 47 543 5991 << 'END'
undoes 1 transaction of binlog.000042: `shop`.`customers` updates 87
looked at 15 later transactions, up to 11159 of binlog.000042: none changes these rows
binlog.000042 goes on in binlog.000007: give that as the next --later
child rows of foreign keys that cascade follow the updated and deleted rows, and are not counted
leaves 13 rows as they are, which were changed since:
binlog.000042 6221 2026-11-26 04:11:00 `shop`.`customers`: update
binlog.000042 6568 2026-11-26 04:12:00 `shop`.`customers`: update
binlog.000042 6915 2026-11-26 04:13:00 `shop`.`customers`: update
binlog.000042 7264 2026-11-26 04:14:00 `shop`.`customers`: update
binlog.000042 7613 2026-11-26 04:15:00 `shop`.`customers`: update
binlog.000042 7962 2026-11-26 04:16:00 `shop`.`customers`: update
binlog.000042 8311 2026-11-26 04:17:00 `shop`.`customers`: update
binlog.000042 8660 2026-11-26 04:18:00 `shop`.`customers`: update
binlog.000042 9009 2026-11-26 04:19:00 `shop`.`customers`: update
binlog.000042 9358 2026-11-26 04:20:00 `shop`.`customers`: update
binlog.000042 9707 2026-11-26 04:21:00 `shop`.`customers`: update
binlog.000042 10056 2026-11-26 04:22:00 `shop`.`customers`: update
binlog.000042 10396 2026-11-26 04:30:00 `shop`.`customers`: delete
END
undoes_rest --leave updated_and_changed.binlog 118 198 5646 << 'END'
undoes 1 transaction of binlog.000042: `shop`.`customers` updates 82
looked at 18 later transactions, up to 11842 of binlog.000042: none changes these rows
binlog.000042 goes on in binlog.000015: give that as the next --later
child rows of foreign keys that cascade follow the updated and deleted rows, and are not counted
leaves 18 rows as they are, which were changed since:
binlog.000042 5876 2026-11-26 04:12:00 `shop`.`customers`: update
binlog.000042 6218 2026-11-26 04:13:00 `shop`.`customers`: update
binlog.000042 6560 2026-11-26 04:14:00 `shop`.`customers`: update
binlog.000042 6902 2026-11-26 04:15:00 `shop`.`customers`: update
binlog.000042 7244 2026-11-26 04:16:00 `shop`.`customers`: update
binlog.000042 7586 2026-11-26 04:17:00 `shop`.`customers`: update
binlog.000042 7928 2026-11-26 04:18:00 `shop`.`customers`: update
binlog.000042 8270 2026-11-26 04:19:00 `shop`.`customers`: update
binlog.000042 8612 2026-11-26 04:20:00 `shop`.`customers`: update
binlog.000042 8954 2026-11-26 04:21:00 `shop`.`customers`: update
binlog.000042 9298 2026-11-26 04:22:00 `shop`.`customers`: update
binlog.000042 9642 2026-11-26 04:23:00 `shop`.`customers`: update
binlog.000042 9986 2026-11-26 04:30:00 `shop`.`customers`: update
binlog.000042 10335 2026-11-26 04:30:00 `shop`.`customers`: update
binlog.000042 10684 2026-11-26 04:30:00 `shop`.`customers`: update
binlog.000042 11024 2026-11-26 04:31:00 `shop`.`customers`: delete
binlog.000042 11372 2026-11-26 04:32:00 `shop`.`customers`: update
END
undoes_rest --merge updated_since.binlog 47 543 5991 << 'END'
undoes 1 transaction of binlog.000042: `shop`.`customers` updates 99
looked at 15 later transactions, up to 11159 of binlog.000042: none changes these rows
binlog.000042 goes on in binlog.000007: give that as the next --later
child rows of foreign keys that cascade follow the updated and deleted rows, and are not counted
merges 12 rows that were changed since, and keep these changes:
binlog.000042 6221 2026-11-26 04:11:00 `shop`.`customers`: update
binlog.000042 6568 2026-11-26 04:12:00 `shop`.`customers`: update
binlog.000042 6915 2026-11-26 04:13:00 `shop`.`customers`: update
binlog.000042 7264 2026-11-26 04:14:00 `shop`.`customers`: update
binlog.000042 7613 2026-11-26 04:15:00 `shop`.`customers`: update
binlog.000042 7962 2026-11-26 04:16:00 `shop`.`customers`: update
binlog.000042 8311 2026-11-26 04:17:00 `shop`.`customers`: update
binlog.000042 8660 2026-11-26 04:18:00 `shop`.`customers`: update
binlog.000042 9009 2026-11-26 04:19:00 `shop`.`customers`: update
binlog.000042 9358 2026-11-26 04:20:00 `shop`.`customers`: update
binlog.000042 9707 2026-11-26 04:21:00 `shop`.`customers`: update
binlog.000042 10056 2026-11-26 04:22:00 `shop`.`customers`: update
binlog.000042 10396 2026-11-26 04:30:00 `shop`.`customers`: delete
END
undoes_rest --merge updated_and_changed.binlog 118 198 5646 << 'END'
undoes 1 transaction of binlog.000042: `shop`.`customers` updates 98
looked at 18 later transactions, up to 11842 of binlog.000042: none changes these rows
binlog.000042 goes on in binlog.000015: give that as the next --later
child rows of foreign keys that cascade follow the updated and deleted rows, and are not counted
merges 16 rows that were changed since, and keep these changes:
binlog.000042 5876 2026-11-26 04:12:00 `shop`.`customers`: update
binlog.000042 6218 2026-11-26 04:13:00 `shop`.`customers`: update
binlog.000042 6560 2026-11-26 04:14:00 `shop`.`customers`: update
binlog.000042 6902 2026-11-26 04:15:00 `shop`.`customers`: update
binlog.000042 7244 2026-11-26 04:16:00 `shop`.`customers`: update
binlog.000042 7586 2026-11-26 04:17:00 `shop`.`customers`: update
binlog.000042 7928 2026-11-26 04:18:00 `shop`.`customers`: update
binlog.000042 8270 2026-11-26 04:19:00 `shop`.`customers`: update
binlog.000042 8612 2026-11-26 04:20:00 `shop`.`customers`: update
binlog.000042 8954 2026-11-26 04:21:00 `shop`.`customers`: update
binlog.000042 9298 2026-11-26 04:22:00 `shop`.`customers`: update
binlog.000042 9642 2026-11-26 04:23:00 `shop`.`customers`: update
binlog.000042 9986 2026-11-26 04:30:00 `shop`.`customers`: update
binlog.000042 10335 2026-11-26 04:30:00 `shop`.`customers`: update
binlog.000042 10684 2026-11-26 04:30:00 `shop`.`customers`: update
binlog.000042 11024 2026-11-26 04:31:00 `shop`.`customers`: delete
binlog.000042 11372 2026-11-26 04:32:00 `shop`.`customers`: update
END
# these rows, the last one first: one keeps the key that it was given since, and three their cities
cat > wanted << 'END'
UPDATE shop.customers  @1=1040  @3: 'Bonn' -> 'Wien'  @4: 0 -> 6  (1 column unchanged)
UPDATE shop.customers  @1=22  @4: 0 -> 2  (2 columns unchanged)
UPDATE shop.customers  @1=21  @4: 0 -> 1  (2 columns unchanged)
UPDATE shop.customers  @1=20  @4: 0 -> 7  (2 columns unchanged)
UPDATE shop.customers  @1=12  @3: 'Bonn' -> 'Bern'  @4: 0 -> 6  (1 column unchanged)
UPDATE shop.customers  @1=11  @3: 'Bonn' -> 'Ulm'  @4: 0 -> 5  (1 column unchanged)
UPDATE shop.customers  @1=10  @3: 'Bonn' -> 'Wien'  @4: 0 -> 4  (1 column unchanged)
UPDATE shop.customers  @1=9  @3: 'Bonn' -> 'Bern'  @4: 0 -> 3  (1 column unchanged)
UPDATE shop.customers  @1=8  @3: 'Bonn' -> 'Ulm'  @4: 0 -> 2  (1 column unchanged)
UPDATE shop.customers  @1=7  @3: 'Bonn' -> 'Wien'  @4: 0 -> 1  (1 column unchanged)
UPDATE shop.customers  @1=6  @3: 'Bonn' -> 'Bern'  @4: 0 -> 7  (1 column unchanged)
UPDATE shop.customers  @1=5  @3: 'Bonn' -> 'Ulm'  @4: 0 -> 6  (1 column unchanged)
UPDATE shop.customers  @1=4  @3: 'Bonn' -> 'Wien'  @4: 0 -> 5  (1 column unchanged)
UPDATE shop.customers  @1=3  @3: 'Bonn' -> 'Bern'  @4: 0 -> 4  (1 column unchanged)
UPDATE shop.customers  @1=2  @3: 'Bonn' -> 'Ulm'  @4: 0 -> 3  (1 column unchanged)
UPDATE shop.customers  @1=1  @3: 'Bonn' -> 'Wien'  @4: 0 -> 2  (1 column unchanged)
END
"$binlog" undo --utc --merge --thread 118 binlog.000042 --show > printed
grep -c "^[0-9]* 2026-11-26 04:10:00 UPDATE" printed | grep -qx 98
tail -n 16 printed | sed 's/^[0-9]* 2026-11-26 04:10:00 //' | diff -u wanted - >&2

# the deletes of one session in two logs, among the changes of others
cp "$logs/deleted_by_session_1.binlog" binlog.000042
cp "$logs/deleted_by_session_2.binlog" binlog.000043
cat > wanted << 'END'
undoes 30 transactions of binlog.000042, binlog.000043: `shop`.`orders` inserts 30; `shop`.`order_lines` inserts 57
END
"$binlog" undo --keep-times --thread 75 binlog.000042 binlog.000043 --dry-run > printed
head -n 1 printed | diff -u wanted - >&2
grep -q '^looked at [0-9]* later transactions, up to 9332 of binlog.000043: none changes these rows$' printed
echo "package/later.sh: what came later is found in each log, and rows that were changed since are left as they are, or merged"
