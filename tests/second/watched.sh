#!/bin/sh
# Runs a program under tests/second/watch.c, and prints a row for each run: watched.sh NAME PROGRAM SETS [WATCH], where
# SETS is a folder with what lines.c makes, and WATCH is built of watch.c; without it the first two rows alone.
# `watched.sh --all FOLDER` prints tests/second/watched.txt anew, of the programs in a folder. RUN is what runs a
# program of another processor.
set -eu
if [ "$1" = --all ]; then
    made=$(mktemp -d)
    trap 'rm -rf "$made"' EXIT
    "${CC:-cc}" -std=gnu11 -O2 -DLINES_ALONE -Iinclude -o "$made/lines" tests/second/lines.c
    "${CC:-cc}" -std=gnu11 -O2 -fPIC -shared -o "$made/watch" tests/second/watch.c -ldl
    for it in digits more changes words mixed turns hosts; do
        "$made/lines" "$it" >"$made/$it"
    done
    cat <<'END'
# What tests/second/watched.sh prints of each program: sums and lengths of what it writes, with its statuses, and of
# what watch.c tells. Of whole runs that stands as it is: how many requests for memory there were, their bytes, and a
# sum of their sizes; how many blocks were not given back; and reads and writes, each with a sum of the sizes.
END
    for it in linkwire linkshow linkstate linkdiff; do
        sh "$0" "$it" "$2/$it" "$made" "$made/watch"
    done
    exit
fi
name=$1 program=$(realpath "$2") sets=$(realpath "$3") watch=${4:+$(realpath "$4")}
stored=crates/$name
[ -e "$stored" ] || stored=tests/$name
stored=$(realpath "$stored") all_said=$(realpath tests/program/said.txt)
streams=$(realpath tests/second/streams.txt) leniently=$(realpath tests/program/lenient.txt)
folder=$(mktemp -d)
trap 'rm -rf "$folder"' EXIT
cd "$folder"
# its name and that of what is loaded are as long wherever they lie
ln -s "$program" program
[ -z "$watch" ] || cp "$watch" watch

# row WHAT: the sums of what is in `said` and `told`
row() {
    echo "$name $1: $(cksum <said) $(cksum <told)"
}

# options that it does not know, of all characters; and a pipe that nobody reads
# shellcheck disable=SC2086
tr '\n' '\000' <"$sets/words" | xargs -0 -n 1 ${RUN:-} ./program >said 2>&1 || :
echo "$name alone, words: $(sed 's/^[^ ]*: //' said | cksum)"
mkfifo pipe
# shellcheck disable=SC2094
exec 3<>pipe 4>pipe 3<&-
status=0
# shellcheck disable=SC2086
echo 00 | ${RUN:-} ./program >&4 2>said || status=$?
exec 4>&-
echo "$name alone, a pipe: $status $(sed 's/^[^ ]*: //' said)"
[ -n "$watch" ] || exit 0

# watched INPUT WORD..: a run under watch; adds what it writes to `said`, and its status
watched() {
    from=$1 status=0
    shift
    LD_PRELOAD=./watch WATCH_TOLD=told ./program "$@" <"$from" >>said 2>&1 || status=$?
    echo "status $status" >>said
}

# counts WHAT INPUT WORD..: what it asks for, reads and writes
counts() {
    what=$1
    shift
    : >said
    : >told
    watched "$@"
    echo "$name $what: $(cksum <said) $(cat told)"
}

# leaves WHAT INPUT WORD..: how many blocks of memory it does not give back
leaves() {
    what=$1
    shift
    : >said
    : >told
    watched "$@"
    echo "$name $what, given back: $(cksum <said) $(sed 's/.*\(left [0-9]*\).*/\1/' told)"
}

# pieces WHAT INPUT WORD..: reads and writes take less than they could
pieces() {
    what=$1
    shift
    : >said
    : >told
    for most in 1 5 64 1000; do
        WATCH_PIECES=$most
        export WATCH_PIECES
        watched "$@"
    done
    unset WATCH_PIECES
    row "$what, in pieces"
}

# refuses WHAT STEP MOST INPUT WORD..: each request for memory up to MOST, or each so many, is refused in turn
refuses() {
    what=$1 number=1 step=$2 most=$3
    shift 3
    : >said
    : >told
    while [ "$number" -le "$most" ]; do
        WATCH_REFUSES=$number
        export WATCH_REFUSES
        watched "$@"
        number=$((number + step))
    done
    unset WATCH_REFUSES
    row "$what, refused memory"
}

# fails WHAT INPUT WORD..: a read or a write fails; 4 is EINTR, after which a write is tried again
fails() {
    what=$1
    shift
    : >said
    : >told
    for call in 'read 1' 'read 2' 'read 3' 'write 1' 'write 2' 'write 3'; do
        for error in 4 5 32; do
            WATCH_FAILS="$call $error"
            export WATCH_FAILS
            watched "$@"
        done
    done
    unset WATCH_FAILS
    row "$what, failing"
}

# one INPUT WORD..: a run of which standard output is summed apart from standard error
one() {
    from=$1 status=0
    shift
    LD_PRELOAD=./watch WATCH_TOLD=told ./program "$@" <"$from" 2>>said >out || status=$?
    echo "status $status, $(cksum <out)" >>said
}

input=$stored/stdin
[ -e "$input" ] || input=/dev/null
if [ "$name" = linkdiff ]; then
    head -n 12 "$streams" >few
    # an interface with a kind, without one, and with another
    for it in 0c00120008000100766c616e 0500030061000000 0500030062000000 0c00120008000100626f6e64 0500030063000000; do
        echo "host=k 00000100010000000000000000000000$it"
    done >kinds
else
    awk 'NR % 1500 == 1 && length($0) < 500' "$sets/more" | cat "$input" - >few
fi
# answers of each kind, alone and behind words; the first long line does not fit
ok=00000000000000000000000000000000060003006c6f
{
    printf '%s\n' zz 00 $ok 00000000000000000000000000000000080018000400020000 "host=a type=new $ok" 'type=lost a=b'
    awk 'BEGIN { printf "0000000000000000000000000000000004011400"; while (i++ < 256) printf "61"; print "" }'
    awk 'length($0) > 60000 { print; exit }' "$sets/more"
} >lines
# words of each length, and ok in front of digits
awk 'BEGIN {
    while (n++ < 200) {
        word = word "a"
        print word "=v '$ok'\nk=" word " 00\n" word " 00\nok" word "\n" word "=\nk=" word " l=" word "= '$ok'"
    }
}' >worded
for it in 'ok ' 'pk ' 'ol ' 'ok!' 'ok' ' ok ' 'OK ' 'ok  ' 'ok ok ' 'k=v ok ' 'k=v  ok ' 'k=v ok' 'ok k=v ' '=v ' \
    'k= '; do
    echo "$it$ok"
done >>worded
counts 'its help' /dev/null --help
# all that it says of words, on standard error and not on standard output
: >said
: >told
grep "^\$ $name " "$all_said" >words
while IFS= read -r line; do
    # shellcheck disable=SC2086
    LD_PRELOAD=./watch WATCH_TOLD=told ./program ${line#*"$name "} <"$stored" 2>>said >out || :
    cksum <out >>said
done <words
row 'of words'
counts 'words in front' worded
refuses 'its help' 1 4 /dev/null --help
fails 'its help' /dev/null --help
pieces 'its help' /dev/null --help
fails 'its version' /dev/null --version
# a word that is no UTF-8, and a line without an end, where a write fails by other errors or memory is refused
printf 00 >open
: >said
: >told
one /dev/null "$(printf '\377')"
for error in 1 11 28 122 123 133; do
    WATCH_FAILS="write 1 $error"
    export WATCH_FAILS
    one open
    one open --lenient
    one /dev/null --help
done
unset WATCH_FAILS
WATCH_REFUSES=1
while [ "$WATCH_REFUSES" -le 10 ]; do
    export WATCH_REFUSES
    one open
    one open --lenient
    WATCH_REFUSES=$((WATCH_REFUSES + 1))
done
unset WATCH_REFUSES
row 'of a line without an end'
number_of=0
while IFS= read -r line; do
    printf '%s\n' "$line" >one
    number_of=$((number_of + 1))
    refuses "line $number_of" 1 12 one
done <lines
case $name in
linkdiff)
    head -n 450 "$streams" >old
    tail -n +451 "$streams" >new
    counts stored "$input"
    counts streams "$streams" --lenient
    counts changes "$sets/changes"
    leaves turns "$sets/turns" --counters --lenient
    leaves hosts "$sets/hosts"
    counts files /dev/null old new
    pieces few few
    pieces files /dev/null --counters old new
    refuses few 1 70 few
    refuses stored 1 640 "$input"
    refuses streams 131 4300 "$streams"
    refuses files 1 90 /dev/null few few
    refuses kinds 1 60 kinds
    refuses 'kinds in files' 1 50 /dev/null kinds kinds
    fails few few
    fails files /dev/null old new
    ;;
*)
    # answers of 65,536 bytes, and of one less
    awk 'BEGIN { while (n++ < 8192) print "00" }' >full
    awk 'BEGIN { while (n++ < 8191) print "00"; print "zz"; print "00" }' >short
    for it in "$input" "$sets/digits" "$sets/more" full short; do
        counts "$(basename "$it")" "$it"
    done
    if [ "$name" != linkwire ]; then
        counts 'more, leniently' "$sets/more" --lenient
        counts 'full, leniently' full --lenient
        counts 'short, leniently' short --lenient
        awk '!/^#/ && count++ % 3 == 0' "$leniently" >lenient
        refuses 'refused attributes, leniently' 1 30 lenient --lenient
    fi
    leaves mixed "$sets/mixed"
    pieces few few
    refuses few 1 80 few
    fails few few
    ;;
esac
