#!/bin/sh
# Compiles compare/src/NAME.rs over the reference's libraries, where they are built: target/compare/bin/NAME; with RUST_CPU=native those of target/compare/native.
#   compare/program.sh NAME [words for rustc]
set -eu
cd "$(dirname "$0")/.."
name=$1
out=target/compare${RUST_CPU:+/$RUST_CPU}
shift
for file in "$out"/lib/*.rlib; do
    if [ -f "$file" ]; then set -- --extern "$(basename "$file" .rlib | cut -c4-)" "$@"; fi
done
rustc --edition 2024 -C opt-level=3 ${RUST_CPU:+-C "target-cpu=$RUST_CPU"} -L "$out/lib" "$@" -o "$out/bin/$name" "compare/src/$name.rs"
