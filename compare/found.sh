#!/bin/sh
# How often the search finds a frame (C/N, gain, turn, frequency offset), how well the alignment turns it, and how often pure noise looks like a frame: the table of docs/BENCH.md.
#   compare/found.sh [FRAMES [PLACES]]
set -eu
cd "$(dirname "$0")/.."
mkdir -p target/compare/bin target/compare/lib
tools/archive c_header >/dev/null 2>&1
compare/program.sh found -L target/staticlib -l static=c_header
target/compare/bin/found "${1:-500}" "${2:-100000000}"
