#!/bin/sh
# Prints tests/second/held.txt anew, by what programs and the library answer: held.sh PROGRAMS [LIBRARY], where PROGRAMS
# is a folder; without LIBRARY the lines of the programs alone. scripts/test/compilers.sh and
# scripts/test/erased_tests.sh say whether builds by other compilers answer alike.
set -eu
cd "$(dirname "$0")/../.."
programs=$1 library=${2:-}
folder=$(mktemp -d)
trap 'rm -rf "$folder"' EXIT
"${CC:-cc}" -std=gnu11 -O2 -Iinclude -o "$folder/lines" tests/second/lines.c "${library:--DLINES_ALONE}"
for set in all news more changes mixed turns hosts worded; do
    "$folder/lines" "$set" >"$folder/$set"
done

# sums NAME SET PROGRAM WORD..
sums() {
    name=$1 set=$2
    shift 2
    "$@" <"$folder/$set" | "$folder/lines" "$set" sums "$name"
}
sums linkshow-whole all "$programs/linkshow"
sums linkshow-whole-lenient all "$programs/linkshow" --lenient --kernel 6.12.0
sums linkdiff news "$programs/linkdiff"
sums linkdiff-counters news "$programs/linkdiff" --counters --lenient
sums linkdiff-changes news "$programs/linkdiff" --changes-only
sums linkshow-whole more "$programs/linkshow"
sums linkshow-whole-lenient more "$programs/linkshow" --lenient --kernel 6.12.0
sums linkdiff-more changes "$programs/linkdiff"
sums linkdiff-more-counters changes "$programs/linkdiff" --counters --lenient
sums linkshow-whole mixed "$programs/linkshow"
sums linkshow-whole-lenient mixed "$programs/linkshow" --lenient --kernel 6.12.0
sums linkshow-whole-worded worded "$programs/linkshow"
sums linkshow-whole-worded-kernel worded "$programs/linkshow" --lenient --kernel 6.17
sums linkdiff-worded worded "$programs/linkdiff"
sums linkdiff-turns turns "$programs/linkdiff"
sums linkdiff-turns-counters turns "$programs/linkdiff" --counters --lenient
sums linkdiff-hosts hosts "$programs/linkdiff"
sums linkdiff-hosts-counters hosts "$programs/linkdiff" --counters --lenient
sums linkdiff-hosts-changes hosts "$programs/linkdiff" --changes-only
head -n 6000 "$folder/hosts" >"$folder/first"
sums linkdiff-files hosts "$programs/linkdiff" --lenient "$folder/first" - 2>/dev/null
for set in all more mixed; do
    [ -z "$library" ] || sums held "$set" "$folder/lines" "$set" held
done
