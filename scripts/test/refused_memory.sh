#!/usr/bin/env bash
# Refuses one allocation after the other in the tests of the program: where one is refused, a run must end with
# `OutOfMemory` and a beginning of the answers, or go on and write them all.
. "$(dirname "$0")/../common.sh"
command -v rt >/dev/null || skips 'no rt, which alone runs these tests so'
cd "$top/crates/linkwire"
test=tests::faults::refused_memory_changes_no_answer
for count in ${REFUSED:-1 4 11}; do
    rt try --test --fail-alloc "$count" >"$log" 2>&1 || true
    grep -q "^test $test \.\.\. ok" "$log" || fails "allocation $count changed an answer"
    echo "refused_memory: allocation $count refused: ok"
done
