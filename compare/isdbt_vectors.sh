#!/bin/sh
# The stored answers of crate vectors_isdbt, from the given Rust, its ties altered (compare/altered.sh).
#   compare/isdbt_vectors.sh [DIR]     DIR holds crates/isdb-fec/.. (default: ../shared/docs/src)
set -eu
cd "$(dirname "$0")/.."
given=${1:-../shared/docs/src}/crates
[ -f "$given/isdbt-fec/src/conv.rs" ] || { echo "no given Rust in $given" >&2; exit 2; }
given=$(cd "$given" && pwd)
out=$PWD/target/isdbt_vectors
mkdir -p "$out"
echo 'pub enum CodeRate { R1_2, R2_3, R3_4, R5_6, R7_8 }' | sed 's/^/#[derive(Debug, Clone, Copy, PartialEq, Eq)] /' > "$out/isdbt_core.rs"
compare/altered.sh "$given/isdb-fec/src/conv.rs" "$out/altered.rs"
echo "#[path = \"$out/altered.rs\"] pub mod conv;" > "$out/isdb_fec.rs"
if grep -q 'crate::simd' "$given/isdb-fec/src/conv.rs"; then echo "#[path = \"$given/isdb-fec/src/simd.rs\"] mod simd;" >> "$out/isdb_fec.rs"; fi
echo "#[path = \"$given/isdbt-fec/src/conv.rs\"] pub mod conv;" > "$out/isdbt_fec.rs"
# lib NAME [--extern NAME ..]
lib() {
    name=$1
    shift
    rustc --edition 2024 --crate-type rlib --crate-name "$name" -O --cap-lints allow -L "$out" "$@" -o "$out/lib$name.rlib" "$out/$name.rs"
}
lib isdbt_core
lib isdb_fec
lib isdbt_fec --extern isdb_fec --extern isdbt_core
rustc --edition 2024 -O -L "$out" --extern isdb_fec --extern isdbt_core --extern isdbt_fec -o "$out/isdbt_vectors" compare/isdbt_vectors.rs
"$out/isdbt_vectors" > crates/vectors_isdbt/data/isdbt.txt
wc -l crates/vectors_isdbt/data/isdbt.txt
