#!/bin/sh
# The example in C, compiled and run over the static library.
set -eu
cd "$(dirname "$0")/.."
mkdir -p target/compare/bin
tools/archive >/dev/null
${CC:-cc} -std=c99 -Wall -Wextra -I include -o target/compare/bin/example compare/c/example.c target/staticlib/libisdb.a
target/compare/bin/example
