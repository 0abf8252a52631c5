#!/bin/sh
# What docs/DIFFERENCES.md says of the given Rust, shown by running it (nothing altered), beside the C calls where it is about them; and whether the page names every public item that is not here.
#   compare/findings.sh [DIR]
set -eu
cd "$(dirname "$0")/.."
given=${1:-${ISDB_RUST:-../shared/docs/src}}
GIVEN_TIES=1 compare/build.sh "$given"
compare/linked.sh findings
target/compare/bin/findings
compare/names.py "$given"
