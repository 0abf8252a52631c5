#!/bin/sh
# The C calls on whole frames beside a model in Rust: headers, searches, alignments and wrong input; counts, and how many differ. It does not need the given Rust.
#   compare/headers.sh [SCALE]
set -eu
cd "$(dirname "$0")/.."
mkdir -p target/compare/bin target/compare/lib
tools/archive c_header >/dev/null 2>&1
compare/program.sh headers -L target/staticlib -l static=c_header
target/compare/bin/headers "${1:-1}"
