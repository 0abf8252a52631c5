#!/bin/sh
# Wrong input to every C call but isdbs_soft, which takes any, between guard pages: the answer is the first row that holds, and nothing is touched that may not be.
# Then the floating-point environment: what include/isdb.h says of it. Neither needs the given Rust. With SHARED=1 over the shared library (compare/linked.sh).
set -eu
cd "$(dirname "$0")/.."
mkdir -p target/compare/bin target/compare/lib
compare/linked.sh bad_input
target/compare/bin/bad_input
# The floating-point environment: isdb_environment_ok in every setting, in C and C++, with and without -ffast-math; and two calls outside the condition.
library=target/staticlib/libisdb.a
if [ "${SHARED:-}" = 1 ]; then library="-Ltarget/staticlib -lisdb -Wl,-rpath,$PWD/target/staticlib"; fi
strict="-Wall -Wextra -Wpedantic -Wconversion -Werror -I include"
for fast in '' -ffast-math; do
    # shellcheck disable=SC2086
    for compiler in "${CC:-cc} -std=c11" "${CXX:-c++} -x c++ -std=c++17"; do
        echo "$compiler -O2 $fast"
        $compiler -O2 $fast $strict -o target/compare/bin/environment compare/c/environment.c -x none $library -lm
        target/compare/bin/environment
    done
done
