#!/usr/bin/env bash
# Looks at what scripts/make/progress.sh proves anew, at its lines and at its end, with a stand-in for rt.
self=progress
. "$(dirname "$0")/../common.sh"
mkdir -p "$folder/bin" "$folder/crates/"{low,mid,top}
cp -r "$top/scripts" "$folder"
printf 'low: std\nmid: low\nmid_not: low\ntop staticlib: mid low\n' >"$folder/crates.txt"
script "$folder/bin/rt" 'echo "said by $PWD $*"' 'case $PWD/$STAND_IN in' \
    '*/mid/waits) echo "$$" >pid && exec sleep 60 ;;' '*/top/fails) exit 1 ;;' 'esac' \
    '[ "$1" != lib ] || { mkdir -p out/rlib && touch out/rlib/stamp; }'

# proves NAME STATUS TEXT STAND_IN: what a run has to print, without seconds and what is in its log
proves() {
    tries env STAND_IN="$4" PATH="$folder/bin:$PATH" "$folder/scripts/make/progress.sh" top "$folder/its_log" rt run
    [ "$status $(sed -E '/^said by/d; s/[0-9]+ s$/N s/' "$folder/err")" = "$2 $3" ] || fails "$1: status $status"
    [ ! -s "$folder/out" ] || fails "$1: something is on standard output"
    [ "$(grep -c '^said by' "$folder/its_log")" = "$(grep -c '\.\.$' "$folder/err")" ] || fails "$1: its log"
    echo "progress: $1: ok"
}
top_line=$'top: 3 of 3 top ..\ntop: 3 of 3 top .. N s'
mid_line=$'top: 2 of 3 mid ..\ntop: 2 of 3 mid .. N s'
all_lines=$'top: 1 of 3 low ..\ntop: 1 of 3 low .. N s\n'$mid_line$'\n'$top_line
proves 'three crates' 0 "$all_lines" ''
proves 'nothing changed' 0 "$top_line" ''
sleep 1.1
touch "$folder/crates/low/source"
proves 'the lowest changed' 0 "$all_lines" ''
sleep 1.1
touch "$folder/crates/mid/source"
proves 'one that changed, and a failure' 1 \
    "$mid_line"$'\ntop: 3 of 3 top ..\nprogress: top: 3 of 3 top .. failed after N s' fails
touch "$folder/crates.txt"
STAND_IN=waits PATH="$folder/bin:$PATH" "$folder/scripts/make/progress.sh" top "$folder/its_log" rt run \
    2>"$folder/err" &
waits 10 test -s "$folder/crates/mid/pid" || fails 'the second crate is not reached'
kill $!
wait $! && fails 'its end is no failure'
pid=$(cat "$folder/crates/mid/pid")
waits 5 sh -c '! kill -0 "$0" 2>/dev/null' "$pid" || fails 'what was started goes on after its end'
echo 'progress: ended from outside: ok'
