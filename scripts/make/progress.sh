#!/usr/bin/env bash
# Proves the crates below a crate, lowest first, and then runs a command in its own folder, as `rt run`:
# progress.sh CRATE LOG COMMAND.. Standard error shows which crate is at work, 'linkwire: 3 of 11 link_recs .. 41 s',
# and at the end the verdict; what they say goes to the log.
. "$(dirname "$0")/../common.sh"
crate=$1 log=$(realpath "$2")
: >"$log"
mapfile -t order < <(crates_below "$crate")

# is_kept NAME: whether the library of an earlier run is newer than all that it is made of
is_kept() {
    local stamp=$top/crates/$1/out/rlib/stamp
    local sources=("$top/crates.txt" "$top/crates/$1")
    [ -e "$stamp" ] && [ -z "$(find "${sources[@]}" -name out -prune -o -newer "$stamp" -type f -print -quit)" ]
}

# whatever ends this script ends what it started
trap 'kill $(jobs -p) 2>/dev/null || true; rm -rf "$folder"' EXIT
trap 'exit 130' INT
trap 'exit 143' TERM HUP

is_new=no
for at in "${!order[@]}"; do
    name=${order[at]} command=(rt lib)
    if [ "$name" = "$crate" ]; then
        command=("${@:3}")
    elif [ "$is_new" = no ] && is_kept "$name"; then
        continue
    fi
    is_new=yes label="$crate: $((at + 1)) of ${#order[@]} $name" start=$SECONDS
    echo "$label .." >&2
    (cd "$top/crates/$name" && exec "${command[@]}") </dev/null >>"$log" 2>&1 &
    wait $! || fails "$label .. failed after $((SECONDS - start)) s"
    echo "$label .. $((SECONDS - start)) s" >&2
done
grep '^logic=proved' "$log" | tail -n 1 | sed "s/^/$crate: /" >&2 || true
