#!/bin/sh
# The stored lists, from the given Rust: target/compare/vectors/*.hex, and the data folder of each crate vectors_* that there is.
#   compare/vectors.sh [DIR]
set -eu
cd "$(dirname "$0")/.."
compare/build.sh "$@"
compare/program.sh vectors
mkdir -p target/compare/vectors
target/compare/bin/vectors target/compare/vectors
rustc -O -o target/compare/bin/soft_vectors compare/soft_vectors.rs
target/compare/bin/soft_vectors > target/compare/vectors/soft.hex
compare/isdbt_vectors.sh "$@"
for name in soft encode decode; do
    if [ -d "crates/vectors_$name/data" ]; then cp "target/compare/vectors/$name.hex" "crates/vectors_$name/data/$name.hex"; fi
done
