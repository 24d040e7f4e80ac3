#!/usr/bin/env bash
# Downloads the source of an engine, of the version that Debian 12 has as a library, into a new
# folder. It ends with 3 where that can't be had, and with 1 where it is another than here.
# Usage: tests/engines/source.sh ENGINE FOLDER      leveldb, rocksdb
set -u
pool=http://deb.debian.org/debian/pool/main
case ${1-} in
leveldb)
    address=$pool/l/leveldb/leveldb_1.23.orig.tar.gz
    sum=9a37f8a6174f09bd622bc723b55881dc541cd50747cbd08831c2a82d620f6d76
    ;;
rocksdb)
    address=$pool/r/rocksdb/rocksdb_7.8.3.orig.tar.gz
    sum=b85408a374770897332bf15e51620a5f35720dd416a4749e3899057f9cfaf84d
    ;;
*)
    sed -n '2,4s/^# //p' "$0"
    exit 2
    ;;
esac
packed=$2.tar
trap 'rm -f "$packed"' EXIT
curl -sSfL --retry 2 -o "$packed" "$address" || {
    echo "there is no curl, or no $address"
    exit 3
}
echo "$sum  $packed" | sha256sum --check --quiet && mkdir "$2" \
    && tar -xzf "$packed" -C "$2" --strip-components=1 || exit 1
