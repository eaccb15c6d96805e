#!/bin/sh
# Prints what programs in out/ say of the words that said.txt has behind `$`, with a folder as their input, which cannot
# be read, and their statuses: said.sh PROGRAM.. RUN is what runs a program of another processor. With the names of all
# programs, in the order of said.txt, it prints that file anew.
set -eu
cd "$(dirname "$0")/../.."
for program in "$@"; do
    while IFS= read -r line; do
        case $line in "\$ $program "*) ;; *) continue ;; esac
        printf '%s\n' "$line"
        status=0
        # shellcheck disable=SC2086
        ${RUN:-} "out/$program" ${line#*"$program "} <tests 2>&1 || status=$?
        echo "status $status"
    done <tests/program/said.txt
done
