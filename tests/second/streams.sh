#!/bin/sh
# Prints tests/second/told.txt anew, the sums of what linkdiff tells of streams.txt, as one stream and as two files,
# with each option: streams.sh LINKDIFF. RUN is what runs a program of another processor.
set -eu
linkdiff=$(realpath "$1") streams=$(realpath "${0%/*}/streams.txt")
folder=$(mktemp -d)
trap 'rm -rf "$folder"' EXIT
cd "$folder"
head -n 450 "$streams" >old
tail -n +451 "$streams" >new

# sum WHAT WORD..: what the program writes with these words, on standard error too
sum() {
    what=$1
    shift
    # shellcheck disable=SC2086
    ${RUN:-} "$linkdiff" "$@" <"$streams" >told 2>&1
    echo "$what $* $(cksum <told)"
}
sum stream
sum stream --lenient
sum stream --counters
sum stream --counters --lenient
sum stream --changes-only
sum stream --changes-only --lenient
sum files old new
sum files --lenient old new
sum files --counters old new
sum files --counters --lenient new old
# without dumps what is not there is told of all
for it in old new; do
    grep -av -e type=begin -e type=done "$it" >"$it.less"
done
sum files old.less new.less
