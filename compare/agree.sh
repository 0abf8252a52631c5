#!/bin/sh
# The C calls that the given Rust has, beside it: how many cases of each kind ran, and how many differ. With SHARED=1 over the shared library (compare/linked.sh).
#   compare/agree.sh [DIR [SCALE]]
set -eu
cd "$(dirname "$0")/.."
compare/build.sh ${1:+"$1"}
compare/linked.sh agree
target/compare/bin/agree "${2:-1}"
