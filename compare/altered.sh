#!/bin/sh
# The given conv.rs with three comparisons altered, since ties are broken as the chassis does (docs/changes/P12.md): on equality the odd predecessor, in
# both kinds of step, and the highest best state. Fails unless exactly these three lines differ.
#   compare/altered.sh GIVEN OUT
set -eu
sed -e 's/^\( *\)let c = m1\[j\] > m0\[j\];$/\1let c = m1[j] >= m0[j];/' \
    -e 's/^\( *\)let c = m1 > m0;$/\1let c = m1 >= m0;/' \
    -e 's/^\( *\)if self\.pm\[s\] > self\.pm\[best\] {$/\1if self.pm[s] >= self.pm[best] {/' \
    "$1" > "$2"
changed=$(diff "$1" "$2" | sed -n 's/^> *//p')
[ "$changed" = "let c = m1[j] >= m0[j];
let c = m1 >= m0;
if self.pm[s] >= self.pm[best] {" ] || { echo "the three comparisons of conv.rs were not altered as they should be" >&2; exit 2; }
