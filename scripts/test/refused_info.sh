#!/usr/bin/env bash
# Refuses each allocation of the test of refused memory of info_tests in turn, in the tests that the gate left.
. "$(dirname "$0")/../common.sh"
tests=$top/crates/info_tests/out/info_tests_tests
name=memory::refused_memory_changes_nothing
calls=(Info::new Info::set Info::set_flags LinkInfo::parse_list Info::list Info::of rewrite push_field)
command -v rt >/dev/null || skips "no rt, which alone makes ${tests#"$top"/}"
[ -x "$tests" ] || fails "there is no ${tests#"$top"/}, which the gate and rt test make"
preloads program/refuse_allocation

for ((allocation = 1; ; allocation++)); do
    refusing "$allocation" "$tests" "$name" </dev/null >"$log" 2>&1 || fails "allocation $allocation: the test fails"
    call=$(sed -n 's/^refused: //p' "$log")
    [ -e "$folder/refused" ] || break
    [ -n "$call" ] || fails "allocation $allocation is refused, and no call says so"
    echo "$call" >>"$folder/refused_to"
done
[ -z "$call" ] || fails 'no allocation is refused, and a call says so'
refused_to=$(sort -u "$folder/refused_to")
[ "$refused_to" = "$(printf '%s\n' "${calls[@]}" | sort)" ] ||
    fails "memory is refused to $(xargs <<<"$refused_to"), and not to ${calls[*]} alone"
for call in "${calls[@]}"; do
    echo "refused_info: $call, $(grep -cx "$call" "$folder/refused_to") refused: ok"
done
echo "refused_info: $((allocation - 1)) allocations of ${#calls[@]} calls refused in turn: ok"
