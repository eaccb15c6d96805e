#!/usr/bin/env bash
# Tries the edits of the lists edits/CRATE.txt as well as those of the gate, in a copy of the crates: each has to be
# refused. WORDS limit it to the edits whose headlines (of the gate's edits: whose names) have them:
#     scripts/test/more_edits.sh [CRATE ..] [--headline WORDS]
. "$(dirname "$0")/../common.sh"
crates=() words=''
while [ $# != 0 ]; do
    case $1 in
    --headline) words=${2:?--headline wants words} && shift ;;
    *) crates+=("$1") ;;
    esac
    shift
done
[ ${#crates[@]} != 0 ] || mapfile -t crates < <(basename -s .txt edits/*.txt)

shopt -s nullglob
cp -r --parents HANDLES crates.txt crates/*/{src,specs,proofs,must-fail} "$folder"
tried=()
for crate in "${crates[@]}"; do
    [ -f "edits/$crate.txt" ] || fails "there is no list edits/$crate.txt"
    edits="$folder/crates/$crate/must-fail"
    python3 scripts/test/edits.py "edits/$crate.txt" "$edits" "$words"
    count=$(find "$edits" -name '*.edit' | wc -l)
    [ "$count" = 0 ] || { echo "$crate: $count edits" && tried+=("$crate"); }
done
[ ${#tried[@]} != 0 ] || fails "no headline has these words: $words"
for crate in $(for name in "${tried[@]}"; do crates_below "$name" | sed '$d'; done | sort -u); do
    [ ! -d "crates/$crate/out" ] || cp -r "crates/$crate/out" "$folder/crates/$crate/"
done
cd "$folder"
rt must-fail "${tried[@]}"
