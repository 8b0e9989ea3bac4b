#!/bin/sh
# Makes an archive of the programs, man pages, completion, README, licences and examples: package/dist.sh VERSION FOLDER
# SOURCE_DATE_EPOCH is the time of all its files. The same files give the same bytes.
set -eu
umask 022
name=flashback-$1-linux-x86_64
result=$2
stage=$(mktemp -d)
trap 'rm -rf "$stage"' EXIT
${MAKE:-make} -s install DESTDIR="$stage" PREFIX="/$name"
cp -R README.md CHANGELOG.md LICENSE-MIT LICENSE-APACHE examples "$stage/$name"
cp package/copyright "$stage/$name/COPYRIGHT"
(
    cd "$stage/$name"
    find . -type f ! -name SHA256SUMS -exec sha256sum {} + | LC_ALL=C sort -k 2 > "$stage/sums"
    mv "$stage/sums" SHA256SUMS
)
mkdir -p "$result"
tar --sort=name --format=ustar --mtime="@$SOURCE_DATE_EPOCH" --owner=0 --group=0 --numeric-owner \
    --mode=u+rwX,go+rX,go-w -C "$stage" -cf "$stage/archive" "$name"
gzip -9 -n < "$stage/archive" > "$result/$name.tar.gz"
echo "$result/$name.tar.gz"
