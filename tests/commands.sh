#!/bin/sh
# Runs `parse` and `replay` over each example, `replay` over each folder of cases, and each run of the files of cases, and compares
# what they print and their status; then verifies and migrates what `replay` wrote; and then runs words and files that are none.
# `tests/commands.sh PROGRAM`. The status is 0 where all is as expected.
case $1 in /*) program=$1 ;; *) program=$PWD/$1 ;; esac
cd "$(dirname "$0")/.." || exit 1
failed=0
# compare WHAT PRINTED EXPECTED STATUS: what was printed, with its status, against two files. Without the
# second file the status is 0.
compare() {
    expected=$(cat "$3"; echo "status $(cat "$4" 2>/dev/null || echo 0)")
    if [ "$2" = "$expected" ]; then
        echo "$1: as expected"
    else
        printf '%s\n' "$1: printed" "$2" "and not" "$expected"
        failed=1
    fi
}
for example in examples/*/; do
    example=${example%/}
    printed=$("$program" parse "$example/squid.conf"; echo "status $?")
    compare "$example, parse" "$printed" "$example/parsed" "$example/parsed-status"
    printed=$("$program" replay "$example/squid.conf" "$example/script"; echo "status $?")
    compare "$example, replay" "$printed" "$example/expected" "$example/status"
done
for case in cases/*/; do
    case=${case%/}
    printed=$("$program" replay "$case/squid.conf" "$case/script"; echo "status $?")
    compare "$case: $(cat "$case/shows")" "$printed" "$case/expected" "$case/status"
done
# The files of cases hold blocks, each a squid.conf with what the commands write of it, as cases/split.awk says.
for subject in cases/*.txt; do
    blocks=$(mktemp -d)
    LC_ALL=C awk -v to="$blocks" -f cases/split.awk "$subject" || failed=1
    count=0
    wrong=0
    for wanted in "$blocks"/*.wanted; do
        run=${wanted%.wanted}
        block=${run%.*}
        count=$((count + 1))
        if [ -f "$run.script" ]; then
            "$program" replay "$block.conf" "$run.script" >"$run.printed"
        elif [ -f "$run.journal" ]; then
            "$program" verify "$block.conf" "$run.journal" >"$run.printed"
        elif [ -f "$run.migrated" ]; then
            "$program" migrate "$run.migrated" >"$run.printed"
        else
            "$program" parse "$block.conf" >"$run.printed"
        fi
        echo "status $?" >>"$run.printed"
        if ! cmp -s "$run.printed" "$wanted"; then
            wrong=$((wrong + 1))
            echo "$subject, $(cat "$block.shows"): wanted (<) and printed (>)"
            diff "$wanted" "$run.printed"
        fi
    done
    echo "$subject: $((count - wrong)) of $count runs as expected"
    [ "$wrong" = 0 ] || failed=1
    rm -rf "$blocks"
done
# ends_so WHAT PRINTED EXPECTED: the same for a short text, which ends with its status.
ends_so() {
    if [ "$2" = "$3" ]; then
        echo "$1: as expected"
    else
        printf '%s\n' "$1: printed" "$2" "and not" "$3"
        failed=1
    fi
}
# says STATUS LINE WORD ..: what the words come to in a folder with the empty files c and s, and f, which is faulty.
folder=$(mktemp -d) && : >"$folder/c" && : >"$folder/s" && echo 'acl a src x' >"$folder/f"
says() {
    wanted="$2
status $1"
    shift 2
    ends_so "words: $*" "$(cd "$folder" && "$program" "$@" </dev/null; echo "status $?")" "$wanted"
}
usage='usage: aclproxy parse CONF | replay CONF SCRIPT | verify CONF JOURNAL | migrate JOURNAL | rehearse N | serve CONF [--port P] [--workers W] [--utc-offset M]'
says 1 "$usage"
says 1 "$usage" rehearse
says 1 "$usage" rehearse x
says 1 "$usage" rehearse 04
says 1 "$usage" rehearse 1000001
says 1 "$usage" rehearse 4 4
says 1 "$usage" verify c
says 1 "$usage" serve
says 1 "$usage" serve c --port 0
says 1 "$usage" serve c --workers 4097
says 1 "$usage" serve c --utc-offset -0
says 1 "$usage" serve c --port 3129 --port 3129
says 1 "$usage" serve --port 3129 c
says 7 'error missing none' serve none
says 2 'error config 1 8' serve f
says 1 "$usage" migrate
says 1 "$usage" migrate c s
says 1 "$usage" parse
says 1 "$usage" replay c
says 1 "$usage" replay c s s
says 1 "$usage" Replay c s
says 0 'ok acls 6 rules 0 classes 0 pools 0' parse c
says 0 '0 begin 0 => epoch 1' replay c c
says 7 'error missing d' parse d
says 7 'error missing none.conf' replay none.conf s
says 7 'error missing a%20b' replay 'a b' s
says 7 'error missing -' replay '' s
says 7 'error missing %2D' replay - s
says 7 'error missing none' replay c none
says 7 'error missing x' replay x y
says 3 'error script 1' verify c s
says 7 'error missing none' verify c none
says 7 'error missing x' verify x y
says 3 'error script 1' migrate s
says 7 'error missing none' migrate none
# The number is that of the requests; the counts are those that a model of the definition in another language gives.
says 0 'asks 0 allowed 0 denied 0 faults 0 sends 0' rehearse 0
says 0 'asks 1 allowed 1 denied 0 faults 0 sends 1' rehearse 1
says 0 'asks 4 allowed 2 denied 2 faults 0 sends 4' rehearse 4
says 0 'asks 8 allowed 4 denied 4 faults 0 sends 8' rehearse 8
says 0 'asks 2000 allowed 879 denied 1121 faults 0 sends 1417' rehearse 2000
# A configuration is judged before the script or the journal is opened.
says 2 'error config 1 8' replay f none
says 2 'error config 1 8' verify f none
# An output that is full ends a run; a last line that it has no room for leaves the status.
echo '0 fly 1' >"$folder/fly"
full() {
    wanted="status $1"
    shift
    ends_so "words, where the output is full: $*" "$(cd "$folder" && "$program" "$@" </dev/null >/dev/full; echo "status $?")" "$wanted"
}
if [ -c /dev/full ]; then
    full 5 parse c
    full 5 replay c s
    full 5 rehearse 4
    full 1 replay c
    full 2 parse f
    full 3 replay c fly
    full 4 parse .
    full 7 replay x s
else
    echo "words, where the output is full: left out, since there is no /dev/full"
fi
rm -rf "$folder"
# What `replay` writes is a journal of version 1; `migrate` makes one of version 2 of it, and both are verified.
folder=$(mktemp -d)
"$program" replay examples/first/squid.conf examples/first/script >"$folder/one"
"$program" migrate "$folder/one" >"$folder/two"
ends_so "a run's output, verified" "$("$program" verify examples/first/squid.conf "$folder/one"; echo "status $?")" 'verified 5
status 0'
ends_so "a journal, migrated" "$("$program" migrate "$folder/one"; echo "status $?")" 'journal 2
1 1 0 begin 0 => epoch 1
2 1 0 open 1 10.1.2.3 4000 => ok
3 1 0 ask 1 GET http://a.example/ => check 1
4 1 0 step 1 => done
5 1 0 take 1 => epoch 1 allowed rule 1
status 0'
ends_so "a migrated journal, verified" "$("$program" verify examples/first/squid.conf "$folder/two"; echo "status $?")" 'verified 5
status 0'
# So it is of each example whose script is run to its end: each of its lines is an entry.
for example in examples/*/; do
    example=${example%/}
    [ ! -f "$example/status" ] || continue
    lines=$(grep -c '' "$example/expected")
    ends_so "$example, verified" "$("$program" verify "$example/squid.conf" "$example/expected"; echo "status $?")" "verified $lines
status 0"
    "$program" migrate "$example/expected" >"$folder/two"
    ends_so "$example, migrated and verified" "$("$program" verify "$example/squid.conf" "$folder/two"; echo "status $?")" "verified $lines
status 0"
done
rm -rf "$folder"
# Words reach the program as they are: an empty one, one of other bytes than letters, and a long one.
ends_so "an empty word" "$("$program" parse ''; echo "status $?")" 'error missing -
status 7'
ends_so "an empty word, replay" "$("$program" replay examples/office/squid.conf ''; echo "status $?")" 'error missing -
status 7'
ends_so "a word with a space, % and LF" "$("$program" parse 'no file%
'; echo "status $?")" 'error missing no%20file%25%0A
status 7'
long=$(printf './%.0s' $(seq 400))none
ends_so "a long word" "$("$program" parse "$long"; echo "status $?")" "error missing $long
status 7"
# A name that is not UTF-8, a folder, and a path through a file are read faults, and not missing.
ends_so "a name that is not UTF-8" "$("$program" parse "$(printf 'a\377')"; echo "status $?")" 'error read
status 4'
ends_so "a folder" "$("$program" parse examples; echo "status $?")" 'error read
status 4'
ends_so "a path through a file" "$("$program" parse README.md/none; echo "status $?")" 'error read
status 4'
# So is a file that the user may not read. Root may read all, so it is run as another user; without the means
# to be one, this is left out.
folder=$(mktemp -d) && cp "$program" "$folder/sq_main" && cp examples/office/squid.conf "$folder" && chmod 755 "$folder" "$folder/sq_main" && chmod 000 "$folder/squid.conf"
as_other=
[ "$(id -u)" != 0 ] || as_other="setpriv --reuid=65534 --regid=65534 --clear-groups"
if $as_other test -x "$folder/sq_main" 2>/dev/null; then
    ends_so "no permission" "$($as_other "$folder/sq_main" parse "$folder/squid.conf"; echo "status $?")" 'error read
status 4'
else
    echo "no permission: left out, since no other user can be had"
fi
rm -rf "$folder"
exit $failed
