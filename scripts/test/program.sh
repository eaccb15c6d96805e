#!/usr/bin/env bash
# Runs a built program: program.sh [linkwire|linkshow|linkstate|linkdiff]. What it says of other words, and where a
# call fails, is in tests/program/said.txt and tests/second/watched.txt, which make self-test compares.
self=${1:-linkwire}
. "$(dirname "$0")/../common.sh"
name=$self
program=$(program "$name")
[ -n "$program" ] || fails 'it is not built'

# looks NAME COMMAND..
looks() {
    self="$name: $1" "${@:2}"
    echo "$name: $1: ok"
}

# refuses WORD..: a run with these words ends with status 2, no output and one line
refuses() {
    tries "$program" "$@" </dev/null
    [ "$status $(wc -l <"$folder/err") $(cat "$folder/out")" = '2 1 ' ] || fails "status $status"
}

looks 'a closed output' leaves 1 '' "$name: write failed" sh -c 'echo 0 | "$0" >&-' "$program"
looks -h leaves 0 "$("$program" --help)" '' "$program" -h </dev/null

# link FAMILY INDEX ATTRIBUTES: a message of e0, the first two a byte in hexadecimal each
link() {
    printf '%s000100%s00000043100000000000000700030065300000%s\n' "$1" "$2" "${3:-}"
}

# holds WHAT ANSWERS: the lines of $folder/lines have so many answers, and want no more memory than a few of them
holds() {
    tries bash -c 'ulimit -v 16000; exec "$0"' "$program" <"$folder/lines"
    [ "$status $(wc -l <"$folder/out") $(cat "$folder/err")" = "0 $2 " ] ||
        fails "$1: status $status, $(wc -l <"$folder/out") answers"
    echo "$name: $1, in 16 MB: ok"
}
for it in 0002 0702 0003; do # each with two MTUs in turn
    link "${it:0:2}" "${it:2}" 08000400dc050000
    link "${it:0:2}" "${it:2}" 0800040028230000
done >"$folder/few"
yes "$(cat "$folder/few")" | head -n 100000 >"$folder/lines" || true # yes ends by SIGPIPE
holds '100,000 lines of three interfaces' 100000

case $name in
linkwire) looks 'captures of kernels' stored captures.txt 2 2 "$program" ;;
linkstate) looks --lenient stored program/lenient.txt 3 3 "$program" --lenient ;;
linkshow)
    looks --lenient stored program/lenient.txt 3 2 "$program" --lenient
    for release in '' $'6\n' $'\xff'; do
        looks "the release ${release@Q}" refuses --kernel "$release"
    done
    ;;
linkdiff) # streams.sh and laws.py of tests/second, and tests/linkdiff/cases.py have the rest
    awk -v alone="$(link 00 @)" -v more="$(link 0a @)" 'BEGIN {
        for (i = 1; i <= 30000; i++) {
            at = sprintf("%02x%02x", i % 256, int(i / 256))
            it = alone; sub(/@00/, at, it); print it
            six = more; sub(/@00/, at, six); print six
            print "type=del " it
        }
    }' >"$folder/lines"
    holds '30,000 interfaces that come, and go in the family 0 alone' 120000
    link 00 02 >"$folder/old"
    link 00 03 >"$folder/new"
    told='{"change":"new","ifi-family":0,"ifi-index":3,"ifname":"e0"}
{"change":"gone","ifi-family":0,"ifi-index":2,"ifname":"e0"}'
    looks 'the first of two files is standard input' leaves 0 "$told" '' "$program" - "$folder/new" <"$folder/old"
    looks 'the second of two files is standard input' leaves 0 "$told" '' "$program" "$folder/old" - <"$folder/new"
    ;;
esac
[ "$name" = linkwire ] || looks 'an argument of no letters' refuses ''

# each line is answered before the next is given
coproc RUN { "$program"; }
for line in 0 00 zz; do
    echo "$line" >&"${RUN[1]}"
    read -r -t 10 _ <&"${RUN[0]}" || fails "no answer to $line before the next line"
done
echo "$name: answers before the next line: ok"
