#!/bin/sh
# The library as others install it, from nothing: both libraries are made and installed to an empty PREFIX, and C, C++, Python and Rust users are built there and run.
# With KEEP_ARCHIVE=1 the libraries are taken as tools/archive left them. Needs, beside rt: a C and a C++ compiler (Debian: gcc g++; clang too where it is there), binutils, pkg-config (pkgconf),
# python3 (3.9 or later; numpy is used where it is there) and rustc (1.85 or later). What is not there is said, and ends the run with 1.
#   compare/install.sh
set -eu
cd "$(dirname "$0")/.."
root=$PWD
for word in "${CC:-cc}" "${CXX:-c++}" ar nm readelf pkg-config python3 rustc; do
    command -v "$word" >/dev/null || { echo "compare/install.sh: no $word: see the packages in its head" >&2; exit 1; }
done
fail() { echo "compare/install.sh: $*" >&2; exit 1; }

[ "${KEEP_ARCHIVE:-}" = 1 ] || tools/archive
tools/declarations check
out=$root/target/install prefix=$root/target/install/prefix
rm -rf "$out"
mkdir -p "$out/bin"
tools/install "$prefix"
tools/exports "$prefix/lib/libisdb.so"

# C and C++ users, who know the header and pkg-config alone, over the shared library and the static one
export PKG_CONFIG_PATH="$prefix/lib/pkgconfig"
export LD_LIBRARY_PATH="$prefix/lib"
flags=$(pkg-config --cflags isdb) shared=$(pkg-config --libs isdb) static=$prefix/lib/libisdb.a
strict="-O2 -Wall -Wextra -Wpedantic -Wconversion -Werror"
clang=$(command -v clang || true)
clangxx=$(command -v clang++ || true)
for compiler in "${CC:-cc} -std=c11" "${CXX:-c++} -x c++ -std=c++17" "${clang:+clang -std=c11}" "${clangxx:+clang++ -x c++ -std=c++17}"; do
    [ -n "$compiler" ] || continue
    for name in example families version; do
        for library in "$shared" "$static"; do
            # shellcheck disable=SC2086
            $compiler $strict $flags -o "$out/bin/$name" "compare/c/$name.c" -x none $library
            "$out/bin/$name" >"$out/$name.txt" || fail "$name ($compiler, $library) ended with $?"
        done
    done
    cat "$out/example.txt"
    grep -q '^answers 0 and 0, 1421 of 1421 bytes the same, 0 steps strained$' "$out/example.txt" || fail "the example ($compiler) says something else"
    diff compare/c/families.txt "$out/families.txt" || fail "the examples ($compiler) say something else"
    echo "ok: $compiler, shared and static"
done

# one version: the header's numbers and string, the library's call, isdb.pc, the bench's words
version=$(tools/declarations version)
number=$(echo "$version" | awk -F. '{ print 10000 * $1 + 100 * $2 + $3 }')
[ "$(head -n 1 "$out/version.txt")" = "$version $number $number" ] || fail "header and library say '$(head -n 1 "$out/version.txt")', not '$version $number $number'"
[ "$(pkg-config --modversion isdb)" = "$version" ] || fail "isdb.pc says $(pkg-config --modversion isdb)"
digits=$(printf '%s' "$version" | sed "s/./b'&', /g; s/, \$//")
grep -qF "VERSION: [u8; 5] = [$digits];" crates/bench_setting/src/usage.rt || fail "crates/bench_setting/src/usage.rt does not say '$version'"
echo "ok: version $version ($number) in the header, the library, isdb.pc and the bench"

# Python: the same words as C, then the tests
ISDB_LIBRARY=$prefix/lib/libisdb.so PYTHONPATH=python PYTHONDONTWRITEBYTECODE=1 python3 -c 'import isdb
for n in range(17): print(n, isdb.answer_text(n))' >"$out/words.txt"
tail -n +2 "$out/version.txt" | diff - "$out/words.txt" || fail "Python and C have other words for the answers"
for library in "$prefix/lib/libisdb.so" ''; do # named, and as the system finds it
    ISDB_LIBRARY=$library PYTHONDONTWRITEBYTECODE=1 python3 -m unittest discover -s python
done

# Rust: declarations made from the header
tools/declarations rust >"$out/isdb.rs"
for kind in dylib static; do
    ISDB_RS=$out/isdb.rs rustc --edition 2024 -O -D warnings -L "$prefix/lib" -l "$kind=isdb" -o "$out/bin/rust_user" compare/rust-user/main.rs
    "$out/bin/rust_user"
done
echo "ok: installed and used from C, C++, Python and Rust"
