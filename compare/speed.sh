#!/bin/sh
# Times and memory beside the given Rust as it is, its ties not altered (opt-level 3): the tables of docs/PERFORMANCE.md. First tools/steps: whether the compiler kept the steps in one
# piece; if not, times say little. The Rust is compiled twice, for the default target and for this machine's processor; each program times its Rust and this library in turn.
#   compare/speed.sh [DIR [ROUNDS]]
set -eu
cd "$(dirname "$0")/.."
out=target/compare
for cpu in "" native; do
    GIVEN_TIES=1 RUST_CPU=$cpu compare/build.sh ${1:+"$1"}
    KEEP_ARCHIVE=${cpu:+1} RUST_CPU=$cpu compare/linked.sh speed
done
tools/steps || echo "the compiler did not keep the steps in one piece"
echo "commit $(git rev-parse --short HEAD), $(rustc --version), $(grep -m1 'model name' /proc/cpuinfo | cut -d: -f2 | xargs)"
export LD_LIBRARY_PATH="$PWD/$out/peer/usr/lib/x86_64-linux-gnu"
"$out/native/bin/speed" "${2:-15}" >"$out/native/times"
"$out/bin/speed" "${2:-15}" all >"$out/times"
echo
echo "| work, ns a step | Rust | Rust, native | here | ratio | ratio, native | Rust holds | lent here |"
echo "|---|---|---|---|---|---|---|---|"
awk -F '\t' '
    $1 == "beside" && FNR == NR { native[$2] = $3; there[$2] = $4 }
    $1 == "beside" && FNR != NR { printf "| %s | %.1f | %.1f | %.1f | **%.2f** | **%.2f** | %d kB | %d kB |\n", $2, $3, native[$2], $4, $3 / $4, native[$2] / there[$2], $5, $6 }
' "$out/native/times" "$out/times"
echo
echo "A frame is sent in 1.3838 ms (39,936 symbols at 28.86 MBd); 48 slots, the worst of the eight mappings:"
echo
echo "| combination | ms | ns a step | times real time |"
echo "|---|---|---|---|"
awk -F '\t' '$1 == "time" { printf "| %s | %.3f | %.1f | **%.2f** |\n", $2, $3, $3 * 1e6 / $4, 39936 / 28860 / $3 }' "$out/times"
echo
echo "| the same 65,536 bits with noise | samples | ns a bit | wrong bits |"
echo "|---|---|---|---|"
awk -F '\t' '$1 == "peer" { printf "| %s | %s | %.1f | %d |\n", $2, $3, $4, $5 }' "$out/times"
