#!/bin/sh
# Runs every command of the guide in README.md on a server of its own, MariaDB's (Debian's package mariadb-server):
#     examples/guide/run.sh PROGRAM BINLOG
# The commands are read from the README. What is put in their place is what differs here: the server's folder and socket,
# the times, the positions that are found, the size at which statements are cut, so that they are cut at all, and the
# option that MariaDB's mysqldump doesn't have. The rows have to be as before the mistake after step 7, and as after it
# after step 9; the same again by flashback.
set -eu
here=$(cd "$(dirname "$0")/../.." && pwd)
work=$(mktemp -d)
mkdir "$work/bin" "$work/data" "$work/home"
HOME=$work/home
export HOME
cp "$1" "$work/bin/flashback"
cp "$2" "$work/bin/binlog"
PATH=$work/bin:$PATH
socket=$work/socket
server=

finish() {
    [ -z "$server" ] || kill "$server"
    [ -z "$server" ] || wait "$server" || true
    rm -rf "$work"
}
trap finish EXIT

fail() {
    echo "examples/guide/run.sh: $1" >&2
    exit 1
}

# a program of MariaDB in place of MySQL's, without this option
stand_in() {
    cat > "$work/bin/$1" << END
#!/bin/sh
for argument do
    shift
    [ "\$argument" = "$3" ] || set -- "\$@" "\$argument"
done
exec $2 "\$@"
END
    chmod +x "$work/bin/$1"
}

start_server() {
    mariadb-install-db --no-defaults --auth-root-authentication-method=normal --datadir="$work/data" \
        > "$work/install.txt" 2>&1 || fail "mariadb-install-db failed"
    mariadbd --no-defaults --user="$(id -un)" --datadir="$work/data" --socket="$socket" --skip-networking \
        --log-bin="$work/data/binlog" --binlog-format=ROW --binlog-checksum=CRC32 --server-id=7 > "$work/server.txt" 2>&1 &
    server=$!
    for _ in $(seq 60); do
        mysql -e "SELECT 1" > "$work/answer" 2>&1 && return
        sleep 0.5
    done
    tail -n 5 "$work/server.txt" >&2
    fail "the server doesn't answer"
}

rows() {
    mysql -e "SELECT * FROM shop.orders ORDER BY id; SELECT * FROM shop.items ORDER BY id"
}

# tables, a right DELETE, the mistake, and a right change behind it
make_mistake() {
    mysql << 'END'
RESET MASTER TO 42;
CREATE DATABASE shop;
CREATE TABLE shop.orders (id INT PRIMARY KEY, customer INT, note VARCHAR(40));
CREATE TABLE shop.items (id INT PRIMARY KEY, order_id INT, n INT);
INSERT INTO shop.orders VALUES (1, 10, 'a'), (2, 11, 'b'), (3, 12, NULL), (4, 13, 'd');
INSERT INTO shop.items VALUES (1, 1, 5), (2, 2, 6), (3, 3, 7);
DELETE FROM shop.orders WHERE id = 4;
END
    rows > "$work/undone"
    # one statement of two rows events
    mysql shop -e "DELETE orders, items FROM orders JOIN items ON items.order_id = orders.id WHERE orders.id > 1"
    rows > "$work/redone"
    mysql -e "INSERT INTO shop.items VALUES (9, 1, 1)"
    printf '9\t1\t1\n' | tee -a "$work/undone" >> "$work/redone"
}

# the positions of step 4, by the rows: of the transaction that deletes the order with the number 2
find_positions() {
    awk '/^# at / { at = $3 }
        / end_log_pos / { match($0, /end_log_pos [0-9]+/); end = substr($0, RSTART + 12, RLENGTH - 12) }
        /^START TRANSACTION/ { start = at; wrong = 0 }
        /^### [A-Z]+ / { of_orders = /DELETE FROM `shop`.`orders`/ }
        /^###   @1=2( |$)/ { if (of_orders) wrong = 1 }
        /^COMMIT/ { if (wrong) { print start, end; exit } }' "$HOME/around.txt"
}

# those that the list of a log has of it
listed_positions() {
    binlog list -d shop -T orders "$1" | awk '/`orders` deletes 2; / { print $1, $2 }'
}

# the commands of the guide: the lines of its blocks, those that a backslash continues as one
commands() {
    sed -n '/^## After a mistaken DELETE/,/^\*\*Servers 5.1/p' "$here/README.md" | grep -E '^( {7,}| {4}[^ ])' | sed 's/^ *//' \
        | sed -e ':next' -e '/\\$/N' -e 's/\\\n */ /' -e 't next'
}

# a command as it is run here
as_run_here() {
    printf '%s\n' "$1" | sed -e "s|/var/lib/mysql|$work/data|" -e 's/| less$/| cat/' -e 's/^less .*/cat ~\/around.txt/' \
        -e 's/; echo \$?$//' -e 's/^binlog \(undo\|redo\|sql\) /binlog \1 --size 1024 /' -e "s/2026-11-22 02:50:00/$from/" \
        -e "s/2026-11-22 03:10:00/$to/" -e "s/4021/$start/g" -e "s/9144/$stop/g" -e "s/3885/$plain_start/g" -e "s/8972/$plain_stop/g"
}

rows_are() {
    rows | cmp - "$work/$1" || fail "the rows aren't as in $1"
}

run_command() {
    bash -o pipefail -c "$(as_run_here "$1")" < /dev/null || fail "this failed: $1"
}

run_guide() {
    start= stop= plain_start= plain_stop=
    from=$(date -d '-10 minutes' '+%F %T')
    to=$(date -d '10 minutes' '+%F %T')
    commands > "$work/commands"
    cd "$work"
    while read -r command <&3; do
        echo "\$ $(as_run_here "$command")"
        run_command "$command"
        case $command in
            "cd /var/lib/mysql") cd "$work/data" ;;
            *"> ~/around.txt")
                positions=$(find_positions) && start=${positions% *} stop=${positions#* }
                [ "$positions" = "$(listed_positions binlog.000042)" ] || fail "binlog list has other positions"
                ;;
            *"< ~/undo.sql") rows_are undone ;;
            "binlog redo"*) rows_are redone ;;
            "binlog plain"*)
                cd "$HOME"
                positions=$(listed_positions plain.000042) && plain_start=${positions% *} plain_stop=${positions#* }
                ;;
            "binlog sql undo.binlog"*) rows_are undone ;;
            *"-r redo.binlog undo.binlog") mv redo.binlog first ;;
            *"-r redo.binlog plain"*) cmp redo.binlog first || fail "the two logs that make the changes once more aren't the same" ;;
        esac
    done 3< "$work/commands"
    run_command "binlog sql redo.binlog | mysql"
    rows_are redone
}

stand_in mysql "mariadb --no-defaults --socket=$socket" -
stand_in mysqldump "mariadb-dump --no-defaults --socket=$socket" --set-gtid-purged=OFF
stand_in mysqlbinlog "mariadb-binlog --no-defaults" -
start_server
make_mistake
run_guide
echo "Every command of the guide did what it says: the rows came back, and were deleted once more, twice."
