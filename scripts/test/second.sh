#!/usr/bin/env bash
# Compares all that is built with the second reader of tests/second: second.sh FOLDER [LIBRARY [SET]]. SET is `all`, or
# `wide` for more; without LIBRARY it compares linkwire, linkstate and linkshow alone. JOBS says how many processes run.
. "$(dirname "$0")/../common.sh"
programs=$1 library=${2:-} set=${3:-all} words=() streams=4000 pairs=45000
[ "$set" = all ] || streams=100000 pairs=200000
python3 tests/second/check.py --places | cmp - tests/second/places.txt ||
    fails "the tables changed: make tests/second/places.txt and stored.txt anew, as tests/second/README.md says"
makes_lines "${library:--DLINES_ALONE}"
shared=$(realpath "$(dirname "$library")")/liblinkwire.so.0
if [ -z "$library" ]; then
    words=(--only "linkwire,linkstate,linkstate-lenient,linkshow,linkshow-lenient")
elif [ -e "$shared" ]; then
    export LINKWIRE=$shared PYTHONPATH=$top/python PYTHONDONTWRITEBYTECODE=1
    words=(--python)
fi
# checks SET WORD..
checks() {
    python3 tests/second/check.py --jobs "${JOBS:-2}" --set "$@" "$programs" "$folder/lines"
}
checks "$set" "${words[@]}"
if [ "$set" = all ]; then
    for it in more mixed digits; do
        [ "$it" != digits ] || words=(--only "linkwire,linkstate,linkstate-lenient,linkshow")
        checks "$it" "${words[@]}" >"$folder/told" || { cat "$folder/told"; exit 1; }
        head -n 1 "$folder/told"
    done
    "${CC:-cc}" -std=gnu11 -O2 -Wall -Wextra -Werror -o "$folder/lists" tests/second/lists.c
    "$folder/lists" made 20000 >"$folder/made"
    "$folder/lines" mixed >"$folder/mixed"
    for it in made mixed; do
        for option in '' --lenient; do
            "$programs/linkshow" ${option:+"$option"} <"$folder/$it" >"$folder/shown"
            runs "$folder/lists" compare "$folder/$it" <"$folder/shown"
            echo "second: $it${option:+, $option}: $(cat "$log")"
        done
    done
fi
if [ -n "$library" ]; then
    python3 tests/second/laws.py --streams "$streams" "$programs"
    python3 tests/second/keyed.py --pairs "$pairs" "$programs"
fi
