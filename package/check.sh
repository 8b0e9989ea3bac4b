#!/bin/sh
# Checks what is installed and packed, each example of the helps and the man pages, which ports are named, and, where there is
# python3, that the names and paths on the pages are in the tree:
#     package/check.sh PROGRAM BINLOG VERSION
# Prints one line if all is well, else what differs from package/files.txt and package/examples.txt.
set -eu
umask 022
cd "$(dirname "$0")/.."
work=$(mktemp -d)
trap 'rm -rf "$work"' EXIT
mkdir "$work/bin" "$work/logs"
cp "$1" "$work/bin/flashback"
cp "$2" "$work/bin/binlog"
version=$3
PATH=$work/bin:$PATH
# in place of a server's client: the lines of SQL without those in base64, which have the time in them
printf '#!/bin/sh\ngrep -v "^[A-Za-z0-9+/=]*\$"\n' > "$work/bin/mysql"
chmod +x "$work/bin/mysql"
# the examples run where the machine's time zone is UTC
export TZ=UTC
failed=0

differs() {
    echo "package/check.sh: $1" >&2
    failed=1
}

# make with these programs, and without the toolchain
made() {
    ${MAKE:-make} -s RT=none PROGRAM="$work/bin/flashback" BINLOG="$work/bin/binlog" VERSION="$version" "$@"
}

files_below() {
    (cd "$1" && find . ! -type d | LC_ALL=C sort)
}

# what make puts where, by its three ways
list_files() {
    echo "make install"
    made install DESTDIR="$work/root" PREFIX=/usr/local
    files_below "$work/root"
    made uninstall DESTDIR="$work/root" PREFIX=/usr/local
    [ -z "$(files_below "$work/root")" ] || differs "make uninstall leaves files"
    echo "make dist"
    made dist DIST="$work/dist" SOURCE_DATE_EPOCH=1000000000 > "$work/archive"
    tar -xzf "$(cat "$work/archive")" -C "$work/root"
    files_below "$work/root"
    (cd "$work/root/flashback-$version-linux-x86_64" && sha256sum --quiet -c SHA256SUMS) || differs "SHA256SUMS is wrong"
    echo "make deb"
    made deb DIST="$work/dist" SOURCE_DATE_EPOCH=1000000000 > "$work/package"
    dpkg-deb -c "$(cat "$work/package")" | awk '!/^d/ { print $6 }' | LC_ALL=C sort
}

# the same bytes, at another time and under another mask
packs_are_the_same() {
    for pack in dist deb; do
        (umask 077 && made "$pack" DIST="$work/again" SOURCE_DATE_EPOCH=1000000000 > "$work/again.$pack")
    done
    cmp "$(cat "$work/archive")" "$(cat "$work/again.dist")" || differs "two archives differ"
    cmp "$(cat "$work/package")" "$(cat "$work/again.deb")" || differs "two packages differ"
}

help_examples() {
    "$@" --help | sed -n '/^Examples:$/,/^$/s/^  \([a-z]\)/\1/p'
}

man_examples() {
    sed -n 's/^\.Dl \$ //p' "man/$1.1" | sed "s/\\\\-/-/g; s/\\\\(aq/'/g"
}

# The folder in which an example, or those of a man page, run: binlog.000042 has checksums for binlog, and none for flashback; to
# list and to report there is binlog.000041 too, to undo the two logs after it, and to cut undo.binlog, which undoes the plain log. Where the pages
# have 4021 and 9144, the transaction that deletes begins at 811 and stops at 1215, and in the plain log at 842 and at 1143.
begin_folder() {
    rm -rf "$work/here"
    mkdir "$work/here"
    case $1 in
        flashback*) cp "$work/logs/plain" "$work/here/binlog.000042" ;;
        "binlog list"* | "binlog report"*)
            cp examples/mysql/crc32_closed.binlog "$work/here/binlog.000041"
            cp examples/mysql/crc32_closed.binlog "$work/here/binlog.000042"
            ;;
        "binlog undo"*)
            cp examples/mysql/crc32_closed.binlog "$work/here/binlog.000042"
            # begun when binlog.000042 was: bytes 4 to 7 are the time of the format description
            { head -c 4 examples/mysql/insert.binlog; head -c 8 examples/mysql/crc32_closed.binlog | tail -c 4; tail -c +9 examples/mysql/insert.binlog; } > "$work/here/binlog.000043"
            cp examples/mysql/update.binlog "$work/here/binlog.000044"
            ;;
        "binlog split"* | "binlog sql"*) cp "$work/logs/undo" "$work/here/undo.binlog" ;;
        binlog*) cp examples/mysql/crc32_closed.binlog "$work/here/binlog.000042" ;;
    esac
}

# a log that was written: its checksum and size, and its events; or the lines of SQL that the client stands for
written() {
    case $1 in
        *.sql) mysql < "$1"; return ;;
        *.html) head -n 1 "$1"; return ;;
    esac
    echo "cksum $(cksum < "$1")"
    od -An -v -tu1 "$1" | awk -f examples/events.awk
}

# an example, what it prints, the log that it writes, and its status; of a help the first line alone
run_example() {
    echo "\$ $1"
    case $1 in
        flashback*) start=842 stop=1143 ;;
        *) start=811 stop=1215 ;;
    esac
    command=$(printf '%s\n' "$1" | sed "s/-j 4021/-j $start/; s/--at 4021/--at $start/; s/--stop-position 9144/--stop-position $stop/")
    status=0
    (cd "$work/here" && sh -c "$command") > "$work/output" 2>&1 || status=$?
    case $1 in
        *--help) head -n 1 "$work/output" ;;
        *) cat "$work/output" ;;
    esac
    file=$(printf '%s\n' "$1" | sed -n -E 's/.*(-r|>) ([^ ]+).*/\2/p')
    [ -z "$file" ] || written "$work/here/$file"
    echo "status $status"
}

# each example of a help begins anew, those of a man page go on where the last one stopped
run_examples() {
    for page in flashback binlog "binlog list" "binlog show" "binlog report" "binlog undo" "binlog redo" "binlog plain" "binlog split" "binlog sql"; do
        echo "## $page --help"
        help_examples $page > "$work/commands"
        while read -r command; do
            begin_folder "$command"
            run_example "$command"
        done < "$work/commands"
    done
    for page in flashback binlog; do
        echo "## $page.1"
        man_examples "$page" > "$work/commands"
        begin_folder "$page"
        while read -r command; do
            run_example "$command"
        done < "$work/commands"
    done
}

# the options that a help lists
help_options() {
    "$@" --help | sed -n '/^Options:$/,/^$/p' | grep -oE '(^| )--?[a-zA-Z][a-z-]*' | tr -d ' ' | LC_ALL=C sort -u
}

# the options that a man page lists
man_options() {
    grep -E '^\.It Fl' "man/$1.1" | grep -oE 'Fl -?[a-zA-Z][a-z-]*' | sed 's/^Fl /-/' | LC_ALL=C sort -u
}

# the words that the shell completes behind these
completed() {
    bash -c '. "completion/$1"; COMP_WORDS=("$@" -); COMP_CWORD=$#; "_$1"; printf "%s\n" "${COMPREPLY[@]}"' bash "$@" \
        | LC_ALL=C sort -u
}

# each fault stands in the man page
faults_are_told() {
    for fault in $(sed -n 's/^ *#\[error("\([A-Za-z]*\).*/\1/p' "$1"); do
        grep -q "^\.It Cm $fault\$" "man/$2.1" || differs "$2.1 has no $fault"
    done
}

# the code of a crate without its comments and tests
code_of() {
    find "crates/$1/src" -name '*.rt' ! -name tests.rt ! -path '*/tests/*' -exec sed '/^ *\/\//d' {} +
}

# Each crate with each one that its code names. What only its definitions, proofs or tests name isn't linked.
linked_by_crates() {
    sed -n 's/^\([a-z0-9_]*\): */\1 /p' crates.txt | while read -r crate others; do
        code_of "$crate" > "$work/code"
        for other in $others; do
            ! grep -q "\<$other::" "$work/code" || echo "$crate $other"
        done
    done
}

# Each port of a Rust crate with the other ones that it names itself, which crates.txt doesn't have. The crates jiff_* of
# the toolchain are parts of one port, and its crates ucd_* are the tables of Unicode.
linked_by_ports() {
    cat << 'END'
bstr memchr
bstr unicode_segmentation
clap strsim
jiff arrayvec
jiff_tz jiff
END
}

# the ports that a program is linked with
ports_of() {
    awk -v program="$1" '
        { others[$1] = others[$1] " " $2 }
        function link(crate,    all, count, i) {
            if (crate in linked)
                return
            linked[crate] = 1
            count = split(others[crate], all, " ")
            for (i = 1; i <= count; i++)
                link(all[i])
            print crate
        }
        END { link(program) }' "$work/links" | while read -r crate; do
        [ -d "crates/$crate" ] || [ "$crate" = jiff_tz ] || echo "$crate"
    done | LC_ALL=C sort
}

# names that stand in lines, divided by commas, each in a line and as crates.txt writes it
one_a_line() {
    tr ',' '\n' | tr -d ' ' | tr - _ | sed '/^$/d' | LC_ALL=C sort
}

# package/copyright names the ports that the programs are linked with, and no others, and says which binlog alone has.
ports_are_named() {
    { linked_by_crates && linked_by_ports; } > "$work/links"
    ports_of flashback > "$work/of_flashback"
    ports_of binlog > "$work/of_binlog"
    LC_ALL=C sort -u "$work/of_flashback" "$work/of_binlog" > "$work/linked"
    sed -n '/^ of its crate:$/,/^ In binlog alone/s/^  \([a-z].*\)/\1/p' package/copyright \
        | sed 's/  .*//' | one_a_line > "$work/named"
    for port in $(LC_ALL=C comm -23 "$work/linked" "$work/named"); do
        differs "package/copyright doesn't name $port, which is linked into a program"
    done
    for port in $(LC_ALL=C comm -13 "$work/linked" "$work/named"); do
        differs "package/copyright names $port, which is linked into no program"
    done
    LC_ALL=C comm -13 "$work/of_flashback" "$work/of_binlog" > "$work/alone"
    sed -n 's/^ In binlog alone: \(.*\)\.$/\1/p' package/copyright | one_a_line | cmp -s "$work/alone" - \
        || differs "package/copyright: in binlog alone are $(tr '\n' ' ' < "$work/alone")"
}

# man pages have no errors, as far as there is a program that looks for them
pages_are_sound() {
    for page in man/*.1; do
        if command -v mandoc > "$work/which"; then
            mandoc -Tlint -Wwarning "$page" >&2 || differs "$page has errors"
        fi
        if command -v man > "$work/which"; then
            man --warnings -E UTF-8 -l "$page" 2> "$work/warnings" > "$work/page" || differs "$page can't be shown"
            [ ! -s "$work/warnings" ] || differs "$page has warnings: $(cat "$work/warnings")"
        fi
    done
}

options_agree() {
    for page in flashback binlog "binlog list" "binlog show" "binlog report" "binlog undo" "binlog redo" "binlog plain" "binlog split" "binlog sql"; do
        help_options $page > "$work/options"
        completed $page | cmp -s "$work/options" - || differs "completion of $page has other options than its help"
    done
    for page in flashback binlog; do
        {
            help_options "$page"
            [ "$page" = flashback ] || { help_options binlog list && help_options binlog show && help_options binlog report && help_options binlog undo && help_options binlog redo; help_options binlog plain && help_options binlog split && help_options binlog sql; }
        } | LC_ALL=C sort -u > "$work/options"
        man_options "$page" | cmp -s "$work/options" - || differs "$page.1 has other options than its help"
    done
}

binlog plain examples/mysql/crc32_closed.binlog > "$work/logs/plain"
flashback -B "$work/logs/plain" > "$work/logs/undo"
list_files > "$work/files"
diff -u package/files.txt "$work/files" >&2 || differs "other files than in package/files.txt"
packs_are_the_same
run_examples > "$work/examples"
diff -u package/examples.txt "$work/examples" >&2 || differs "an example does other than in package/examples.txt"
options_agree
faults_are_told crates/blog_event/src/fault.rt flashback
faults_are_told crates/blog_sum/src/fault.rt binlog
ports_are_named
pages_are_sound
if command -v python3 > "$work/which"; then
    python3 package/pages.py || differs "a page names what isn't there"
fi
for program in flashback binlog; do
    case $($program --version) in
        "$program $version (proved with "*) ;;
        *) differs "$program --version isn't $version" ;;
    esac
done
grep -q "^## $version\$" CHANGELOG.md || differs "CHANGELOG.md has no $version"
[ "$failed" = 0 ] || exit 1
echo "package/check.sh: files, examples and options are as they should be"
