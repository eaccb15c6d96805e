#!/usr/bin/env bash
# Proves and builds a program as out/NAME, for the processor that targets.txt names, and shows on standard error how far
# it is: build.sh NAME
. "$(dirname "$0")/../common.sh"
read -ra flags <<<"$(flags_for x86_64)"
"$top/scripts/make/progress.sh" "$1" "$folder/log" rt run "${flags[@]:2}" >&2
mkdir -p "$top/out"
cp "$top/crates/$1/out/$1" "$top/out/$1"
