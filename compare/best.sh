#!/bin/sh
# isdbs_best_reading beside a second program (src/best.rs): how many frames of each kind ran, and how many differ.
#   compare/best.sh [DIR [SCALE]]        SCALE (default 1) multiplies the frames
#   compare/best.sh [DIR] clean          the leads of clean frames at scale 8
#   compare/best.sh [DIR] speed [ROUNDS] times beside isdbs_decode_frame
#   compare/best.sh [DIR] stack          the call in a thread with a stack of 96 kB
set -eu
cd "$(dirname "$0")/.."
case ${1:-} in clean | speed | stack) dir= ;; *) dir=${1:-}; if [ $# -gt 0 ]; then shift; fi ;; esac
compare/build.sh ${dir:+"$dir"}
compare/linked.sh best
target/compare/bin/best "$@"
