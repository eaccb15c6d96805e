#!/usr/bin/env bash
# Lists wrong bodies that a crate's contracts let through, by `rt plant`: [MINUTES=N] plant.sh [CRATE..]. Without names
# it takes every crate with contracts. Bodies that the time did not reach are counted there as not run.
. "$(dirname "$0")/../common.sh"
minutes=${MINUTES:-10} crates=("$@")
[ "${#crates[@]}" != 0 ] || crates=(nla_wire link_{vals,recs,vfrec,nest,vf,afspec,msg,state,info,c} line_filter
    message_lines shown message_{shown,diff} expected link{wire,state,show,diff})
for crate in "${crates[@]}"; do
    (cd "crates/$crate" && rt plant --minutes "$minutes") >"$folder/log" 2>&1 || true
    {
        echo
        echo "## $crate at $(git rev-parse --short HEAD), $minutes minutes"
        printf '\n```text\n'
        grep -E '^(proves|no-ensures|untested|plants) ' "$folder/log" || tail -n 5 "$folder/log"
        printf '```\n'
    } >>edits/plants.md
    tail -n 1 "$folder/log"
done
