#!/bin/sh
# usage: compare/files.sh      tries what the gate cannot: pipes, integers against f64, names with line ends, closed and full outputs, broken runs.
# It needs crates/bench/out/bench (cd crates/bench && rt run) and python3; with strace it counts the calls of read and write. The last line is 'N passed, M failed'.
set -u
root=$(cd "$(dirname "$0")/.." && pwd -P)
bench=$root/tools/bench
room=$(mktemp -d) || exit 2
trap 'rm -rf "$room"' EXIT
cd "$room" || exit 2
cp "$root/crates/bench_replay/data/load" load
passed=0 failed=0

is() { # WHAT FOUND WANTED
    if [ "$2" = "$3" ]; then
        passed=$((passed + 1))
    else
        failed=$((failed + 1))
        printf 'FAILED: %s: %s, not %s\n' "$1" "$2" "$3"
    fi
}

ends() { # WHAT STATUS LAST WORDS..: the status of a run, and how its last line begins
    what=$1 status=$2 last=$3
    shift 3
    "$bench" "$@" >report 2>/dev/null
    is "$what: status" $? "$status"
    case $(tail -n 1 report) in "$last"*) is "$what" 0 0 ;; *) is "$what" "$(tail -n 1 report)" "$last" ;; esac
}

words='7:44,1:4 001 first'
line_end='a
refused'
# shellcheck disable=SC2086
{
    ends make 0 ok make $words load frame.cf64
    ends 'a name of two lines' 2 'failed: cannot read "a\x0arefused"' read $words "$line_end" bytes

    # a frame by a pipe, whole and in pieces of odd lengths; and two frames
    cat frame.cf64 | "$bench" read $words /dev/stdin bytes >report
    is 'a pipe' "$? $(cmp bytes load && echo same)" '0 same'
    { head -c 5 frame.cf64; sleep 0.1; tail -c +6 frame.cf64 | head -c 100001; sleep 0.1; tail -c +100007 frame.cf64; } |
        "$bench" read $words /dev/stdin bytes >report
    is 'a pipe in pieces' "$? $(cmp bytes load && echo same)" '0 same'
    cat frame.cf64 frame.cf64 | "$bench" judge $words /dev/stdin load | grep -c 'has more than is read' >count
    is 'a pipe with more' "$(cat count)" 1
    cat frame.cf64 frame.cf64 | "$bench" read $words /dev/stdin bytes main | grep -c 'the first frame of the file is read' >count
    is 'a pipe with more, of read' "$(cat count)" 1

    # random integers, and the same numbers as f64
    python3 - <<'P'
import random, struct
random.seed(1)
n = [-32768, 32767, -1, 0, 1, -32767] + [random.randint(-32768, 32767) for _ in range(2 * 38976 - 6)]
open("random.ci16", "wb").write(struct.pack("<%dh" % len(n), *n))
open("random.cf64", "wb").write(struct.pack("<%dd" % len(n), *(x / 32768 for x in n)))
open("random.sigmf-data", "wb").write(struct.pack("<%dh" % len(n), *n))
open("random.sigmf-meta", "w").write('{"global": {"core:datatype": "ci16_le"}}')
P
    "$bench" read $words random.cf64 bytes >wanted
    for name in random.ci16 random.sigmf-data; do
        "$bench" read $words $name found >report
        is "$name: status" $? 3
        is "$name" "$(cmp bytes found && sed "s/$name/random.cf64/; s/found/bytes/" report | cmp - wanted && echo same)" same
    done

    # outputs that cannot be written
    "$bench" make $words load closed.cf64 >&- 2>said
    is 'closed output' "$? $(grep -c 'standard output is closed' said) $(ls closed* 2>/dev/null)" '2 1 '
    "$bench" make $words load lost.cf64 >/dev/full 2>said
    is 'full output' "$? $(grep -c 'only a part of the report' said) $(ls lost*)" '2 1 lost.cf64'

    # runs that were broken off, and one that is going
    sh -c 'echo $$' >frame.cf64.run
    : >frame.cf64.part
    ends 'a run that is gone' 2 "failed: cannot write \"frame.cf64\": process $(cat frame.cf64.run), which was writing it, was broken off: remove" make $words load frame.cf64
    echo $$ >frame.cf64.run
    ends 'a run that is going' 2 "failed: cannot write \"frame.cf64\": process $$ is writing it: wait" make $words load frame.cf64
    rm frame.cf64.run
    ends 'a part alone' 2 'failed: cannot make "frame.cf64.part": it is there already' make $words load frame.cf64
    rm frame.cf64.part
    ends 'after both are removed' 0 ok make $words load frame.cf64
    is 'nothing is left' "$(echo frame.cf64*)" frame.cf64

    if command -v strace >/dev/null; then
        strace -f -e trace=read,write -o calls "$root/crates/bench/out/bench" read $words frame.cf64 bytes >report
        echo "read of a frame of f64 parts: $(grep -c 'read(' calls) calls of read, $(grep -c 'write(' calls) of write"
    fi
}
echo "$passed passed, $failed failed"
[ "$failed" -eq 0 ]
