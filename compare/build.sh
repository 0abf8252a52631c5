#!/bin/sh
# Builds the given Rust and the stub crates around it: target/compare/lib/*.rlib. Three comparisons of its decoder are altered, since ties are broken
# as the chassis does (docs/changes/P12.md): on equality the odd predecessor, in both kinds of step, and the highest best state. With GIVEN_TIES=1 nothing is
# altered: for times, since the altered step compiles to slower code.
# With RUST_CPU=native it is compiled for this machine's processor, to target/compare/native.
#   compare/build.sh [DIR]     DIR holds crates/isdb-fec/.. (default: $ISDB_RUST, else ../shared/docs/src)
set -eu
cd "$(dirname "$0")/.."
given=${1:-${ISDB_RUST:-../shared/docs/src}}/crates
[ -f "$given/isdb-fec/src/conv.rs" ] || { echo "no given Rust in $given" >&2; exit 2; }
given=$(cd "$given" && pwd)
stubs=$PWD/compare/stubs
out=$PWD/target/compare${RUST_CPU:+/$RUST_CPU}
mkdir -p "$out/src/isdb_fec" "$out/src/isdbs_core" "$out/src/isdbs_phy" "$out/src/isdbt_fec" "$out/lib" "$out/bin"

if [ "${GIVEN_TIES:-}" = 1 ]; then
    cp "$given/isdb-fec/src/conv.rs" "$out/src/isdb_fec/altered.rs"
else
    compare/altered.sh "$given/isdb-fec/src/conv.rs" "$out/src/isdb_fec/altered.rs"
fi
cat "$out/src/isdb_fec/altered.rs" "$stubs/conv_access.rs" > "$out/src/isdb_fec/conv.rs"
ln -sf "$stubs/isdb_fec.rs" "$out/src/isdb_fec/lib.rs"
for name in combination frame slots tmcc; do
    ln -sf "$given/isdbs-core/src/$name.rs" "$out/src/isdbs_core/$name.rs"
done
ln -sf "$stubs/isdbs_core.rs" "$out/src/isdbs_core/lib.rs"
ln -sf "$given/isdbs-phy/src/lib.rs" "$given/isdbs-phy/src/demod.rs" "$out/src/isdbs_phy/"
ln -sf "$stubs"/isdbs_phy/*.rs "$out/src/isdbs_phy/"
ln -sf "$given/isdbt-fec/src/conv.rs" "$out/src/isdbt_fec/conv.rs"
ln -sf "$stubs/isdbt_fec.rs" "$out/src/isdbt_fec/lib.rs"

# lib NAME SOURCE [--extern NAME ..]
lib() {
    name=$1 source=$2
    shift 2
    rustc --edition 2024 --crate-type rlib --crate-name "$name" -C opt-level=3 -C codegen-units=1 ${RUST_CPU:+-C "target-cpu=$RUST_CPU"} --cap-lints allow \
        -L "$out/lib" "$@" -o "$out/lib/lib$name.rlib" "$source"
}
rustc --edition 2024 --crate-type proc-macro --crate-name thiserror --cap-lints allow -o "$out/lib/libthiserror.so" "$stubs/thiserror.rs"
lib num_complex "$stubs/num_complex.rs"
lib isdb_frontend "$stubs/isdb_frontend.rs"
lib isdbt_core "$stubs/isdbt_core.rs"
lib isdb_fec "$out/src/isdb_fec/lib.rs"
lib isdbs_core "$out/src/isdbs_core/lib.rs" --extern isdb_fec --extern thiserror
lib isdbs_phy "$out/src/isdbs_phy/lib.rs" --extern num_complex --extern isdb_fec --extern isdb_frontend --extern isdbs_core
lib isdbt_fec "$out/src/isdbt_fec/lib.rs" --extern isdb_fec --extern isdbt_core
