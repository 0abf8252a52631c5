#!/bin/sh
# Compiles compare/src/NAME.rs over the reference and the static library of the C calls: target/compare/bin/NAME.
# With KEEP_ARCHIVE=1 the library is taken as it is. With SHARED=1 it is the shared one (libisdb.so) in place of the static one.
#   compare/linked.sh NAME
set -eu
cd "$(dirname "$0")/.."
archive=target/staticlib/libisdb.a
mkdir -p target/compare
[ "${KEEP_ARCHIVE:-}" = 1 ] || tools/archive >/dev/null
calls=
for pair in isdbt:isdbt_depuncture encode:isdbs_encode_frame decode:isdbs_decode_frame wanted:isdbs_wanted_load judge:isdbs_judge quality:isdbs_quality best:isdbs_best_reading; do
    if nm "$archive" 2>/dev/null | grep -q " T ${pair#*:}\$"; then calls="$calls --cfg ${pair%%:*}"; fi
done
peer=target/compare/peer/usr/lib/x86_64-linux-gnu
if [ "$1" = speed ]; then
    if [ -f "$peer/libfec.a" ]; then calls="$calls --cfg libfec -L $peer -l static=fec"; fi
    for pair in libosmocore:libosmocore.so.19 volk:libvolk.so.2.5; do
        if [ -f "$peer/${pair#*:}" ]; then calls="$calls --cfg ${pair%%:*} -C link-arg=$peer/${pair#*:} -C link-arg=-Wl,--allow-shlib-undefined"; fi
    done
fi
# shellcheck disable=SC2086
if [ "${SHARED:-}" = 1 ]; then
    compare/program.sh "$1" -A unexpected_cfgs $calls -L target/staticlib -l dylib=isdb -C link-arg=-Wl,-rpath,"$PWD/target/staticlib"
    readelf -d "target/compare/bin/$1" | grep -q 'NEEDED.*libisdb\.so' || { echo "compare/linked.sh: $1 is not linked with libisdb.so" >&2; exit 2; }
else
    compare/program.sh "$1" -A unexpected_cfgs $calls -L target/staticlib -l static=isdb
fi
