#!/bin/sh
# Runs the gate, then package/check.sh, package/refused.sh, package/later.sh, package/show.sh and package/report.sh on the programs that it built:
#     package/gate.sh VERSION COMMAND..
# The last line is the command's own, and the status isn't 0 where either failed.
set -u
version=$1
shift
room=$(mktemp -d)
trap 'rm -rf "$room"' EXIT
# each line but the last is shown as it comes
{ "$@"; echo $? > "$room/status"; } \
    | awk -v last="$room/last" 'NR > 1 { print line; fflush() } { line = $0 } END { if (NR) print line > last }'
status=$(cat "$room/status")
if [ "$status" -eq 0 ]; then
    sh "$(dirname "$0")/check.sh" crates/flashback/out/flashback crates/binlog/out/binlog "$version" || status=1
    sh "$(dirname "$0")/refused.sh" flashback crates/flashback/out/flashback || status=1
    sh "$(dirname "$0")/refused.sh" binlog crates/binlog/out/binlog || status=1
    sh "$(dirname "$0")/later.sh" crates/binlog/out/binlog || status=1
    sh "$(dirname "$0")/show.sh" crates/binlog/out/binlog || status=1
    sh "$(dirname "$0")/report.sh" crates/binlog/out/binlog || status=1
fi
[ ! -f "$room/last" ] || cat "$room/last"
exit "$status"
