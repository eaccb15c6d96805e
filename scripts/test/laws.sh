#!/usr/bin/env bash
# Tries the laws of the library for C on messages that a seed makes, the test's own code with sanitizers where these are
# to be had: laws.sh LIBRARY [MESSAGES [SEED] | --seconds N [SEED]]
. "$(dirname "$0")/../common.sh"
program=$folder/laws
if ! ${CC:-cc} "${sanitizers[@]}" -o "$program" -x c - <<<'int main(void) { return 0; }' >"$log" 2>&1 ||
    ! "$program" >>"$log" 2>&1; then
    echo "laws: without sanitizers, which are not to be had: $(head -n 1 "$log")"
    sanitizers=()
fi
${CC:-cc} -std=gnu11 -O1 -Wall -Wextra -Wpedantic -Wshadow -Werror -I"$top/include" "${sanitizers[@]}" \
    -o "$program" "$top/tests/c/laws.c" "$1"
"$program" "${@:2}"
