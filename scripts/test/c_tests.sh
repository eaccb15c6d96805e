#!/usr/bin/env bash
# Tests the libraries for C: c_tests.sh ARCHIVE [FOLDER..]. The shared library is beside the archive; the folders, else
# that of the archive, have linkdump and linkdiff. LONG=1 in the environment polls the kernel's links for a minute.
self='c tests'
. "$(dirname "$0")/../common.sh"
library=$(realpath "$1")
shared=${library%.a}.so.0

# names WORD.. LIBRARY: what it defines for others
names() {
    nm --defined-only --extern-only --format=posix "$@" | awk 'NF > 1 { print $1 }' | sort
}
# a declaration may have several lines
declared=$(sed -n -e ':a' -e '/^[a-z].*,$/{N;s/\n *//;ba' -e '}' \
    -e 's/^[a-z][a-z0-9_]* *.*[ *]\(linkwire_[a-z_]*\)(.*;$/\1/p' "$top/include/linkwire.h" | sort)
packed=$(sed -n 's/^ \(linkwire_.*\)@Base .*/\1/p' "$top/debian/liblinkwire0.symbols" | sort)
for found in "$(names "$library")" "$(names -D "$shared")" "$packed"; do
    [ "$found" = "$declared" ] ||
        fails "a library, or debian/liblinkwire0.symbols, has other names than the header declares: $found"
done

# header COMPILER:STANDARD FLAG..: compiles the header's own program, and runs it, where the compiler is there
header() {
    local standard=${1#*:}
    command -v "${1%:*}" >/dev/null || return 0
    "${1%:*}" -std="$standard" -Werror "${@:2}" -I"$top/include" -o "$folder/header" \
        -x "${standard%[0-9][0-9]}" "$top/tests/c/header.c" -x none "$library"
    "$folder/header"
}
warnings=(-Wall -Wextra -Wpedantic -Wconversion -Wshadow)
for it in {gcc,clang}:{c99,c11} {g,clang}++:c++17; do
    header "$it" "${warnings[@]}"
done
header g++:c++11 "${warnings[@]}" -Wold-style-cast -Wuseless-cast -Wzero-as-null-pointer-constant
# all that clang says, but for what no code can change: spaces in structs, and what older standards lack
for it in clang:{c99,c11} clang++:c++{11,20}; do
    header "$it" -Weverything -Wno-unknown-warning-option -Wno-padded -Wno-c++98-compat -Wno-c++98-compat-pedantic \
        -Wno-unsafe-buffer-usage -Wno-declaration-after-statement -Wno-pre-c11-compat
done

flags=(-std=c11 -O1 -Wall -Wextra -Wpedantic -Wshadow -Werror -I"$top/include")
for test in "$top"/tests/c/*.c; do
    [ "${test##*/}" != laws.c ] || continue
    ${CC:-cc} "${flags[@]}" -o "$folder/plain" "$test" "$library"
    "$folder/plain"
    [ "${test##*/}" != memory.c ] || continue # it has an allocator of its own
    ! ${CC:-cc} "${flags[@]}" "${sanitizers[@]}" -o "$folder/sanitized" "$test" "$library" 2>"$log" ||
        "$folder/sanitized"
done
python3 "$top/tests/c/pages.py" "$library"
"$top/scripts/test/laws.sh" "$library"
"$top/scripts/test/live_tests.sh" "$library"
start=$SECONDS
"$top/scripts/test/state_live.sh" "$library" "${@:2}"
echo "c tests: state_live.sh: $((SECONDS - start)) s"
"$top/scripts/test/store_tests.sh" "$shared"
echo 'c tests passed'
