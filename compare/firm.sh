#!/bin/sh
# When a slot is firm (docs/BENCH.md): made frames of each combination with noise and with bursts, read by isdbs_best_reading and isdbs_decode_frame; the tables, and 1 where the rule fails them.
#   compare/firm.sh [ROUNDS [SEED [WHAT]]]      a round (default 14 of them, the page's table is of seed 1): 200 slots or more of each combination at each of five dB, and a frame of each kind of burst; about 5 s of processor time
# WHAT: whole (frames of one combination, the default); mixed (seven tables of several, at each dB from where the first fails to 4 above where the last does); scales (0.37 and 64 in place of 8); gain (points times 0.97 and 1.03);
# narrow (points of f32); unknown (the reader does not know the start); other (nor is it the one that it takes for the levels);
# WORD+DB, such as 7+2: ROUNDS frames of one combination at one dB above where its bytes fail, with noise alone.
# With KEEP_ARCHIVE=1 the libraries of c_best and c_frame are taken as they are. What each slot showed is left in target/compare/firm.txt.
set -eu
cd "$(dirname "$0")/.."
mkdir -p target/compare/bin target/compare/lib
if [ "${KEEP_ARCHIVE:-}" != 1 ]; then
    for crate in c_best c_frame; do
        tools/archive "$crate" >target/compare/firm.log 2>&1 || { tail -n 20 target/compare/firm.log >&2; exit 2; }
    done
fi
compare/program.sh firm -A unexpected_cfgs --cfg best --cfg decode --cfg encode -L target/staticlib -l static=c_best -l static=c_frame
nice -n 15 target/compare/bin/firm list "${1:-14}" "${2:-1}" "${3:-whole}" >target/compare/firm.txt
target/compare/bin/firm tables target/compare/firm.txt
