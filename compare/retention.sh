#!/bin/sh
# tools/retention on a made folder: files of every kind on both sides of their time, names with blanks, newlines and other bytes, links to files and folders, a folder that cannot be read, a mounted one,
# folders and files that are changed between the listing and the removal.
#   compare/retention.sh
# Ends with 0, or says what is wrong and ends with 1. What this machine does not let it make (a mount) is said and left out.
set -eu
cd "$(dirname "$0")/.."
tool=$PWD/tools/retention
top=$(mktemp -d)
trap 'chmod -R u+rwx "$top" 2>/dev/null || :; rm -rf "$top"' EXIT
now=$(date +%s)
wrong=0
tried=0
nl='
'

# aged DAYS HOURS NAME: a file that was changed so long ago
aged() {
    mkdir -p "$(dirname "$3")"
    echo x >"$3"
    touch -d "@$((now - $1 * 86400 - $2 * 3600))" "$3"
}

# is WHAT CONDITION..: says where a condition does not hold
is() {
    what=$1
    shift
    tried=$((tried + 1))
    if ! "$@"; then
        echo "wrong: $what" >&2
        wrong=$((wrong + 1))
    fi
}
gone() { [ ! -e "$1" ] && [ ! -L "$1" ]; }
here() { [ -e "$1" ] || [ -L "$1" ]; }
ended() { [ "$status" = "$1" ]; }
# one line of a report, exactly
told() { grep -qxF -- "$1" "$top/said"; }
untold() { ! grep -qF -- "$1" "$top/said"; }
faulted() { grep -qF -- "$1" "$top/fault"; }
run() {
    status=0
    "$tool" "$@" >"$top/said" 2>"$top/fault" || status=$?
}

kept=$top/kept
outside=$top/outside
mkdir "$kept" "$outside"
# both sides of each kind's time, and every ending
for ending in cf64 cf32 ci16 sigmf-data sigmf-meta load bytes; do aged 90 1 "$kept/old.$ending" && aged 89 23 "$kept/new.$ending"; done
for ending in report json svg; do aged 365 1 "$kept/old.$ending" && aged 364 23 "$kept/new.$ending"; done
aged 7 1 "$kept/old.visits" && aged 6 23 "$kept/new.visits"
# names that it does not know
for name in old.txt cf64 .cf64 old.cf64.part old.CF64 old.cf64x oldcf64 'old.cf64 ' "old.cf64$nl" .visits; do aged 4000 0 "$kept/$name"; done
aged -400 0 "$kept/future.visits"
# names that could forge a line, or end a list too early
aged 91 0 "$kept/a b  c.cf64"
aged 91 0 "$kept/a${nl}0 of 0 files past their time.cf64"
aged 91 0 "$kept/-rf.cf64"
aged 91 0 "$kept/--remove.cf64"
aged 91 0 "$kept/$(printf 'esc\033[2J\177tab\ttwo\\quote"')*.cf64"
aged 91 0 "$kept/$(printf 'latin\351').cf64"
aged 91 0 "$kept/$(printf 'na\303\257ve').cf64"
aged 91 0 "$kept/$(printf 'c1\302\233').cf64"
aged 91 0 "$kept/in$nl one/two/deep.cf64"
# links: to a file, to a folder, to nothing; none is followed, none is removed
aged 4000 0 "$outside/far.cf64"
aged 4000 0 "$outside/folder/far.visits"
ln -s "$outside/far.cf64" "$kept/link.cf64"
ln -s "$outside" "$kept/link"
ln -s "$outside/folder" "$kept/folder.visits"
ln -s /nothing "$kept/broken.svg"
ln -s .. "$kept/up"
touch -h -d "@$((now - 4000 * 86400))" "$kept/link.cf64" "$kept/folder.visits" "$kept/broken.svg"
# no plain files with a known name
mkdir "$kept/folder.cf64" && touch -d "@$((now - 4000 * 86400))" "$kept/folder.cf64"
mkfifo "$kept/pipe.cf64" && touch -d "@$((now - 4000 * 86400))" "$kept/pipe.cf64"
# a second name of a file outside: the name goes, the file stays
ln "$outside/far.cf64" "$kept/second.cf64"

find "$top" | sort >"$top.before"
run "$kept"
is "a listing ends with 0" ended 0
find "$top" | grep -a -v -e "^$top/said$" -e "^$top/fault$" | sort >"$top.after"
is "a listing removes nothing" cmp -s "$top.before" "$top.after"
rm -f "$top.before" "$top.after"
for ending in cf64 cf32 ci16 sigmf-data sigmf-meta load bytes; do is "old.$ending is listed" told "past its time: capture, 90 days old, 90 are kept: \"old.$ending\""; done
for ending in report json svg; do is "old.$ending is listed" told "past its time: report, 365 days old, 365 are kept: \"old.$ending\""; done
is "old.visits is listed" told 'past its time: visit list, 7 days old, 7 are kept: "old.visits"'
is "nothing new is listed" untold new.
is "the newline is escaped" told 'past its time: capture, 91 days old, 90 are kept: "a\x0a0 of 0 files past their time.cf64"'
is "control bytes are escaped" told 'past its time: capture, 91 days old, 90 are kept: "esc\x1b[2J\x7ftab\x09two\\quote"*.cf64"'
is "a byte that is no UTF-8 is escaped" told 'past its time: capture, 91 days old, 90 are kept: "latin\xe9.cf64"'
is "a C1 control is escaped" told 'past its time: capture, 91 days old, 90 are kept: "c1\xc2\x9b.cf64"'
is "letters are not" told "past its time: capture, 91 days old, 90 are kept: \"$(printf 'na\303\257ve').cf64\""
is "folders are looked through" told 'past its time: capture, 91 days old, 90 are kept: "in\x0a one/two/deep.cf64"'
is "links are not listed" untold link
is "nothing behind a link is listed" untold far
is "every line is one of these" sh -c '! grep -qvE "^past its time: |^[0-9]+ of [0-9]+ files past their time" "$1"' - "$top/said"
is "the last line counts" told "21 of 33 files past their time, none removed (--remove does); 16 of other names or no plain files stay"

run --remove "$kept"
is "--remove ends with 0" ended 0
is "the last line counts what was removed" told "21 of 33 files past their time, 21 removed; 16 of other names or no plain files stay"
is "each name is said" told 'removing: capture, 91 days old, 90 are kept: "a b  c.cf64"'
for name in old.cf64 old.bytes old.json old.visits 'a b  c.cf64' "a${nl}0 of 0 files past their time.cf64" -rf.cf64 --remove.cf64 "in$nl one/two/deep.cf64" second.cf64; do is "$name is gone" gone "$kept/$name"; done
for name in new.cf64 new.sigmf-meta new.load new.report new.svg new.visits future.visits old.txt .cf64 old.cf64.part old.CF64 'old.cf64 ' "old.cf64$nl" link link.cf64 folder.visits broken.svg up folder.cf64 pipe.cf64; do is "$name stays" here "$kept/$name"; done
is "what is outside stays" here "$outside/far.cf64"
is "what is behind a linked folder stays" here "$outside/folder/far.visits"
run "$kept" --remove
is "a second run finds nothing" told "0 of 12 files past their time, 0 removed; 16 of other names or no plain files stay"

# a link is not taken for DIR, with or without a /
aged 4000 0 "$outside/again.visits"
ln -s "$outside" "$top/way"
for way in "$top/way" "$top/way/"; do
    run --remove "$way"
    is "a link as DIR is not taken" ended 2
    is "and it is said" faulted "it is a link"
done
is "and nothing is removed" here "$outside/again.visits"
for words in '' '--remove' '--remove --remove kept' 'a b' '--all kept' '/nothing/there'; do
    # shellcheck disable=SC2086
    run $words
    is "'$words' is not taken" ended 2
    is "'$words': it is said why" test -s "$top/fault"
done

# a folder that cannot be read: it is said, the others are looked through
run_plain() {
    status=0
    if [ "$(id -u)" = 0 ]; then
        setpriv --bounding-set=-dac_override,-dac_read_search --inh-caps=-dac_override,-dac_read_search "$tool" "$@" >"$top/said" 2>"$top/fault" || status=$?
    else
        "$tool" "$@" >"$top/said" 2>"$top/fault" || status=$?
    fi
}
mkdir "$kept/shut"
aged 4000 0 "$kept/shut/old.cf64"
aged 4000 0 "$kept/tail.cf64"
chmod 000 "$kept/shut"
run_plain --remove "$kept"
is "a folder that cannot be read: 2" ended 2
is "it is named" faulted 'cannot look into "shut": Permission denied'
is "the others are looked through" gone "$kept/tail.cf64"
# one that can be entered and not read, and the reverse; and DIR itself
for mode in 100 400; do
    chmod $mode "$kept/shut"
    run_plain --remove "$kept"
    is "a folder of mode $mode: 2" ended 2
    is "a folder of mode $mode is named" faulted 'cannot look into "shut": Permission denied'
    run_plain --remove "$kept/shut"
    is "DIR of mode $mode: 2" ended 2
    is "DIR of mode $mode is named" faulted "cannot look into \"$kept/shut\": Permission denied"
done
chmod 700 "$kept/shut"
is "nothing in it is removed" here "$kept/shut/old.cf64"
# a folder that cannot be written: the file stays, and that is said
chmod 500 "$kept/shut"
run_plain --remove "$kept"
is "a file that cannot be removed: 2" ended 2
is "it is named" faulted 'cannot remove "shut/old.cf64": Permission denied'
chmod 700 "$kept/shut"

# what cannot be said is not removed
status=0
"$tool" --remove "$kept" >/dev/full 2>"$top/fault" || status=$?
is "a full output: 2" ended 2
is "and nothing is removed" here "$kept/shut/old.cf64"
status=0
"$tool" --remove "$kept" >&- 2>"$top/fault" || status=$?
is "a closed output: 2" ended 2
is "and nothing is removed then" here "$kept/shut/old.cf64"
status=0
"$tool" --remove "$kept" >"$top/said" 2>&- || status=$?
is "closed faults: 2" ended 2
is "and nothing is removed then either" here "$kept/shut/old.cf64"
# a pipe whose reader is gone
mkfifo "$top/pipe"
status=0
(exec 3<>"$top/pipe" 4>"$top/pipe" 3>&- && "$tool" --remove "$kept" >&4 2>"$top/fault") || status=$?
is "a reader that is gone: 2" ended 2
is "it is said" faulted "stopped"
is "and nothing is removed for it" here "$kept/shut/old.cf64"

# every byte that a name can have, in files and folders; folders whose names look like words of a program, or end in a newline
names=$top/names
mkdir "$names"
for byte in 0 1 2 3; do
    for next in 0 1 2 3 4 5 6 7; do
        for last in 0 1 2 3 4 5 6 7; do
            case $byte$next$last in 000 | 057) continue ;; esac
            printf "%b" "\\0$byte$next$last.cf64\\0000a\\0$byte$next$last\\0040\\0$byte$next$last/b.visits\\0000"
        done
    done
done >"$top/list"
for name in '-delete' '(' '!' '*' "end$nl" "$nl" '{}' ';' '%s' '\\0101'; do printf '%s/old.cf64\0' "$name"; done >>"$top/list"
(cd "$names" && xargs -0 dirname -z -- <"$top/list" | sort -zu | xargs -0 mkdir -p -- && xargs -0 touch -d "@$((now - 91 * 86400))" -- <"$top/list")
(cd "$names" && find . -type f -printf 'x' >"$top/said")
is "there is a file for each byte" test "$(wc -c <"$top/said")" = 518
run "$names"
is "each is listed" told "518 of 518 files past their time, none removed (--remove does); 0 of other names or no plain files stay"
is "each on one line" test "$(grep -c '^past its time: .*"$' "$top/said")" = 518
is "a newline at the end of a folder's name" told 'past its time: capture, 91 days old, 90 are kept: "end\x0a/old.cf64"'
seen=$top/seen
# blanks, marks that are not seen and ones that turn the writing; letters of two, three and four bytes; bytes that only look like UTF-8
for name in '\0302\0240' '\0302\0255' '\0342\0200\0213' '\0342\0200\0250' '\0342\0200\0256' '\0342\0201\0246' '\0343\0200\0200' '\0356\0200\0200' '\0357\0273\0277' '\0363\0240\0201\0201' '\0300\0257' '\0355\0240\0200' '\0340\0200\0200' '\0364\0220\0200\0200' '\0342\0202'; do
    aged 91 0 "$seen/hidden$(printf %b "$name").cf64"
done
for name in '\0316\0251' '\0346\0227\0245' '\0360\0237\0231\0202'; do aged 91 0 "$seen/seen$(printf %b "$name").cf64"; done
run "$seen"
is "what is not seen is escaped" test "$(LC_ALL=C grep -c '"hidden\(\\x[89a-f][0-9a-f]\)\{2,4\}\.cf64"$' "$top/said")" = 15
is "what is seen is not" test "$(LC_ALL=C grep -c '"seen[^ -~]*\.cf64"$' "$top/said")" = 3
# a path that is longer than the system takes in one piece, and more folders one in another than are looked through
long=$(printf '%0200d' 0)
(cd "$names" && for _ in 1 2 3 4 5 6 7 8 9 10 11 12 13 14 15 16 17 18 19 20 21 22 23 24 25; do mkdir "$long" && cd -P "$long"; done && aged 91 0 old.cf64)
mkdir "$names/steep"
(cd "$names/steep" && i=0 && while [ "$i" != 105 ]; do mkdir d && cd -P d && aged 91 0 old.cf64 && i=$((i + 1)); done)

# no program is needed beside these
tools=$top/tools
mkdir "$tools"
for program in date find sort tr od awk grep; do ln -s "$(command -v $program)" "$tools/$program"; done
status=0
PATH=$tools "$tool" --remove "$names" >"$top/said" 2>"$top/fault" || status=$?
is "too many folders: 2" ended 2
is "it is said how many" faulted ': more than 100 folders lie one in another'
is "only that" test "$(wc -l <"$top/fault")" = 1
is "all but what is too deep is removed" told "617 of 617 files past their time, 617 removed; 0 of other names or no plain files stay"
is "which stays" test "$(find "$names" -type f -printf x | wc -c)" = 7
# without one of them nothing is removed that is not said
run "$seen"
is "with all of them: 0" ended 0
for program in date find sort tr od awk grep; do
    rm "$tools/$program"
    status=0
    PATH=$tools "$tool" --remove "$seen" >"$top/said" 2>"$top/fault" || status=$?
    is "without $program: 2" ended 2
    is "without $program nothing is removed that is not said" test "$(find "$seen" -type f -printf x | wc -c)" = $((18 - $(grep -c ^removing "$top/said")))
    ln -s "$(command -v $program)" "$tools/$program"
done

# What is changed while it runs: here sort and find do $STAGE first, sort when a folder has been listed, find when a file is about to be removed.
race=$top/race
far=$outside/race
mkdir "$race" "$race/bin"
printf '#!/bin/sh\n"%s" "$@" >"%s.$$" && eval "$STAGE" && cat "%s.$$"\n' "$(command -v sort)" "$race/sorted" "$race/sorted" >"$race/bin/sort"
printf '#!/bin/sh\ncase " $* " in *" -delete "*) eval "$STAGE" ;; esac\nexec "%s" "$@"\n' "$(command -v find)" >"$race/bin/find"
chmod +x "$race/bin/sort" "$race/bin/find"
staged() {
    status=0
    DIR=$race/dir FAR=$far STAGE=$1 PATH=$race/bin:$PATH "$tool" --remove "$race/dir" >"$top/said" 2>"$top/fault" || status=$?
}
for name in dir/swap/old.cf64 dir/moved/old.cf64 dir/moved/in/old.cf64 dir/tail.cf64 dir/files/new.cf64 dir/files/link.cf64 dir/files/folder.cf64 dir/files/gone.cf64 dir/files/old.cf64; do aged 91 0 "$race/$name"; done
for name in old.cf64 in/old.cf64 tail.cf64; do aged 4000 0 "$far/$name"; done
# a link takes the place of a folder that was listed, then of one that is looked through
staged 'case $PWD in */dir) mv swap "$FAR/swap" && ln -s "$FAR" swap ;; */moved) mv "$DIR/moved" "$FAR/moved" && ln -s "$FAR" "$DIR/moved" ;; esac'
is "links were laid" test -L "$race/dir/swap" -a -L "$race/dir/moved"
is "a link in a folder's place: 2" ended 2
is "it is seen" faulted 'cannot look into "swap": a link has taken its place'
is "a folder that is gone from DIR is seen" faulted 'cannot remove "moved/old.cf64": its folder was moved'
is "also from one in it" faulted 'cannot look into "moved/in": a link has taken its place, or it was moved'
for name in old.cf64 in/old.cf64 tail.cf64 swap/old.cf64 moved/old.cf64 moved/in/old.cf64; do is "$name outside stays" here "$far/$name"; done
is "the others are removed" gone "$race/dir/tail.cf64"
is "also in a folder" gone "$race/dir/files/old.cf64"
# files that are changed after they were said
rm "$race/dir/swap" "$race/dir/moved"
aged 91 0 "$race/dir/files/old.cf64"
for name in new link folder gone; do aged 91 0 "$race/dir/files/$name.cf64"; done
staged 'case $1 in ./new.cf64) touch "$1" ;; ./link.cf64) ln -sf "$FAR/old.cf64" "$1" ;; ./folder.cf64) rm "$1" && mkdir "$1" ;; ./gone.cf64) rm "$1" ;; esac'
is "files that have changed: 2" ended 2
for name in new link folder; do
    is "$name.cf64 was said" told "removing: capture, 91 days old, 90 are kept: \"files/$name.cf64\""
    is "$name.cf64 has changed" faulted "cannot remove \"files/$name.cf64\": it has changed"
    is "$name.cf64 stays" here "$race/dir/files/$name.cf64"
done
is "a file that is gone" faulted 'cannot remove "files/gone.cf64": No such file or directory'
is "the other one is removed" told "5 of 5 files past their time, 1 removed; 0 of other names or no plain files stay"
is "what a link names stays" here "$far/old.cf64"

# DIR by other names: from within, with a path for cd, with many /, and one that find would take for a word of its own
for dir in . '(' "$race/way/" "end$nl"; do
    case $dir in . | /*) there=$race/way ;; *) there=$race/way/$dir ;; esac
    mkdir -p "$there"
    aged 91 0 "$there/old.cf64"
    status=0
    (cd "$race/way" && CDPATH=$far "$tool" --remove "$dir//" >"$top/said" 2>"$top/fault") || status=$?
    is "DIR '$dir': 0" ended 0
    is "DIR '$dir' is looked through" gone "$there/old.cf64"
done
aged 91 0 "$race/way/old.cf64"
status=0
(cd "$race/way" && "$tool" --remove '' >"$top/said" 2>"$top/fault") || status=$?
is "an empty DIR: 2" ended 2
is "it is not the working folder" here "$race/way/old.cf64"

# a mounted folder, of another file system and of the same one
mkdir "$kept/disk" "$kept/bound"
if unshare -m sh -c 'mount -t tmpfs none "$1/disk" && mount --bind "$2" "$1/bound" && echo x >"$1/disk/old.cf64" && touch -d "@1000000000" "$1/disk/old.cf64" &&
    { "$3" --remove "$1" >"$4" 2>&1; test -e "$1/disk/old.cf64"; }' - "$kept" "$outside" "$tool" "$top/said" 2>/dev/null; then
    is "another file system is not entered" told 'not looked into, another file system is mounted there: "disk"'
    is "nor a bound folder" told 'not looked into, another file system is mounted there: "bound"'
    is "what is bound stays" here "$outside/again.visits"
    # one that is mounted when DIR has been listed
    mkdir "$race/dir/late"
    aged 91 0 "$race/dir/late/old.cf64"
    # shellcheck disable=SC2016
    DIR=$race/dir FAR=$far STAGE='case $PWD in */dir) mount --bind "$FAR" "$DIR/late" ;; esac' PATH=$race/bin:$PATH unshare -m "$tool" --remove "$race/dir" >"$top/said" 2>&1 || :
    is "a late mount is seen" told 'not looked into, another file system is mounted there: "late"'
    is "what it shows stays" here "$far/old.cf64"
    is "what it hides too" here "$race/dir/late/old.cf64"
else
    echo "not tried: this machine mounts nothing"
fi

echo "$tried conditions, $wrong wrong"
[ "$wrong" = 0 ]
