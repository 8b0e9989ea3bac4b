#!/bin/sh
# Makes a Debian package of the same files: package/deb.sh VERSION FOLDER
# SOURCE_DATE_EPOCH is the time of all its files. The same files give the same bytes.
set -eu
umask 022
version=$1-1
result=$2
here=$(dirname "$0")
stage=$(mktemp -d)
trap 'rm -rf "$stage"' EXIT
root=$stage/root
doc=$root/usr/share/doc/flashback
maintainer=$(sed -n 's/^Maintainer: //p' "$here/control")
${MAKE:-make} -s install DESTDIR="$root" PREFIX=/usr
gzip -9 -n "$root"/usr/share/man/man1/*.1
mkdir -p "$doc" "$root/DEBIAN" "$result"
cp -R README.md examples "$doc"
cp "$here/copyright" "$doc"
gzip -9 -n < CHANGELOG.md > "$doc/changelog.gz"
gzip -9 -n > "$doc/changelog.Debian.gz" << END
flashback ($version) unstable; urgency=medium

  * The version $1; changelog.gz has what changed.

 -- $maintainer  $(LC_ALL=C date -R -u -d "@$SOURCE_DATE_EPOCH")
END
chmod -R u+rwX,go+rX,go-w "$root"
(cd "$root" && find usr -type f -exec md5sum {} + | LC_ALL=C sort -k 2) > "$stage/sums"
mv "$stage/sums" "$root/DEBIAN/md5sums"
size=$(find "$root/usr" -type f -exec wc -c {} + | awk '$2 != "total" { k += int(($1 + 1023) / 1024) } END { print k }')
sed -e "s/@VERSION@/$version/" -e "s/@SIZE@/$size/" "$here/control" > "$root/DEBIAN/control"
find "$root" -exec touch -h -d "@$SOURCE_DATE_EPOCH" {} +
dpkg-deb --root-owner-group -Zgzip --build "$root" "$result/flashback_${version}_amd64.deb" > /dev/null
echo "$result/flashback_${version}_amd64.deb"
