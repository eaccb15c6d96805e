# shellcheck shell=bash disable=SC2034
# What the scripts share, `. "$(dirname "$0")/../common.sh"`: `self` stands in front of what a script says, by default
# its name without `_tests`; `itself` is its path, and `folder` is one for the script alone, which goes at its end.
# `top` is the repository, where each script runs: paths that it is given are those from there.
set -euo pipefail
self=${self:-$(basename "${0%_tests.sh}" .sh)}
itself=$(realpath "$0") top=$(cd "$(dirname "${BASH_SOURCE[0]}")/.." && pwd)
cd "$top"

# lacks WHAT..: says that it is skipped, and goes on; `skips` ends there
lacks() {
    echo "$self: skipped: $*"
}

skips() {
    lacks "$@"
    exit 0
}

# fails WHY..: ends with that, and shows what `tries` and `runs` left
fails() {
    local it
    for it in "$folder/out" "$folder/err" "${log:-}"; do
        [ ! -f "$it" ] || tail -n 40 "$it" | cut -c 1-300 >&2
    done
    echo "$self: $*" >&2
    exit 1
}

# tries COMMAND..: its status is `status`, and what it says is in $folder/out and $folder/err
tries() {
    status=0
    "$@" >"$folder/out" 2>"$folder/err" || status=$?
}

# leaves STATUS OUTPUT ERRORS COMMAND..: it ends so, and that is all that it says
leaves() {
    tries "${@:4}"
    { [ "$status" = "$1" ] && [ "$(cat "$folder/out")" = "$2" ] && [ "$(cat "$folder/err")" = "$3" ]; } ||
        fails "${*:4}: status $status, and not: $1, '${2:0:100}', '${3:0:100}'"
}

# stored FILE STEP PLACE COMMAND..: it answers to the first of each STEP lines of a file of tests/ with the one at PLACE
stored() {
    grep -v '^#' "$top/tests/$1" >"$folder/stored"
    leaves 0 "$(sed -n "$3~$2p" "$folder/stored")" '' "${@:4}" < <(sed -n "1~$2p" "$folder/stored")
}

# fails_with TEXT COMMAND..: it fails, and says that
fails_with() {
    tries "${@:2}"
    { [ "$status" != 0 ] && grep -qF -e "$1" "$folder/out" "$folder/err"; } ||
        fails "${*:2}: status $status, and it does not say '$1'"
}

# script FILE LINE..: a script for sh of these lines, which can be run
script() {
    printf '%s\n' '#!/bin/sh' "${@:2}" >"$1"
    chmod +x "$1"
}

# A script runs itself again as `SCRIPT --inside FOLDER WORD..`: `inside` is 1 there, and its words stay.
inside=''
if [ "${1:-}" = --inside ]; then
    inside=1 folder=$2
    shift 2
else
    folder=$(mktemp -d)
    trap 'rm -rf "$folder"' EXIT
fi

# goes_inside WORD..: ends with this script in a network namespace of its own, with a /sys of that
goes_inside() {
    local flags mounts='mount -t sysfs sysfs /sys'
    command -v ip >/dev/null || skips 'a namespace: no command ip'
    for flags in -mn -rmn; do
        if unshare "$flags" sh -c "$mounts" 2>/dev/null; then
            unshare "$flags" sh -c "$mounts && ip link set lo up && exec \"\$@\"" sh "$itself" --inside "$folder" "$@"
            exit 0
        fi
    done
    skips 'a namespace: no right to make one, or to mount a sysfs'
}

# has WHAT COMMAND..: whether these are there, else it says that WHAT is skipped
has() {
    local it
    for it in "${@:2}"; do
        command -v "$it" >/dev/null || { lacks "$1: no $it"; return 1; }
    done
}

# needs COMMAND..: else the script is skipped
needs() {
    has 'all of it' "$@" || exit 0
}

# has_namespace WHAT [FLAGS]: whether `unshare FLAGS` makes a network namespace, and ip is there, else it says that WHAT
# is skipped
has_namespace() {
    has "$1" ip || return 1
    unshare "${2:--rn}" true 2>/dev/null || { lacks "$1: no right to make a network namespace"; return 1; }
}

# program NAME [FOLDER..]: where the program is, in these folders, else in out/ or as the gate left it; nothing where it
# is not built
program() {
    local IFS=:
    [ "$#" != 1 ] || set -- "$1" "$top/out" "$top/crates/$1/out"
    PATH=${*:2} type -P "$1" | xargs -r realpath || true
}

# each_python COMMAND..: at once, with version and path of each Python from 3.9 to 3.13 that runs, on the path or
# of pyenv
each_python() {
    local version found waits=()
    for version in 3.9 3.10 3.11 3.12 3.13; do
        found=$(for it in "python$version" /usr/bin/"python$version" \
            "${PYENV_ROOT:-$HOME/.pyenv}"/versions/"$version".*/bin/"python$version"; do
            "$it" -c 'import sys; print(sys.executable)' 2>/dev/null && break
        done) || { lacks "Python $version: it is not here" && continue; }
        "$@" "$version" "$found" &
        waits+=("$!")
    done
    for it in "${waits[@]}"; do
        wait "$it" || fails 'a Python fails'
    done
}

# strict PACKAGE: what mypy says of that of python/
strict() {
    has types mypy || return 0
    runs mypy --strict --cache-dir="$folder/mypy" "python/$1"
    echo "$self: mypy --strict: $(tail -n 1 "$log")"
}

# block PAGE LANGUAGE [LINE]: the first block of that language in a page of docs/, behind that line
block() {
    sed -n "/^${3:-}/,\${/^\`\`\`$2\$/,\${/^\`\`\`$2\$/d;/^\`\`\`\$/q;p}}" "$top/docs/$1"
}

# reads ARRAY FILE: the lines of a file of tests/, without comments
reads() {
    local text
    text=$(grep -v '^#' "$top/tests/$2")
    mapfile -t "$1" <<<"$text"
}

# waits SECONDS COMMAND..: until it succeeds, so long at most
waits() {
    local until=$((SECONDS + $1))
    while ! "${@:2}"; do
        [ "$SECONDS" -lt "$until" ] || return 1
        sleep 0.05
    done
}

# runs COMMAND..: what it says is in the file $log, and is shown where it fails
log=$folder/log
runs() {
    "$@" >"$log" 2>&1 || fails "$* fails"
}

# passed: how many tests of cargo have, by what `runs` left
passed() {
    awk '/^test result: ok/ { ok += $4; not += $8 } END { print ok " tests passed, " not " ignored" }' "$log"
}

# preloads FILE FLAG..: compiles tests/FILE.c, whose functions stand for those of the C library, as $folder/preloaded.so
preloads() {
    ${CC:-cc} -O2 -Wall -Wextra -Werror "${@:2}" -shared -fPIC -o "$folder/preloaded.so" "$top/tests/$1.c" -ldl
}

# refusing NUMBER COMMAND..: with that allocation refused by program/refuse_allocation, and then $folder/refused made
refusing() {
    rm -f "$folder/refused"
    REFUSED_CALL=$1 REFUSED_MARK=$folder/refused LD_PRELOAD=$folder/preloaded.so "${@:2}"
}

# with FAULT COMMAND..: where by live/kernel_faults a kernel does what it seldom does
with() {
    LD_PRELOAD=$folder/preloaded.so KERNEL_FAULT=$1 timeout 20 "${@:2}" 2>"$folder/err"
}

# asked COUNT: whether what ran last has sent so many requests
asked() {
    [ "$(grep -sc '^asked$' "$folder/err")" -ge "$1" ] 2>/dev/null
}

# flags by which a compiler's own code looks at what it does
sanitizers=(-g "-fsanitize=address,undefined" -fno-sanitize-recover=all)

# makes_lines -DLINES_ALONE|LIBRARY..: compiles $folder/lines, which makes the lines of tests/second, and with a library
# calls it
makes_lines() {
    "${CC:-cc}" -std=gnu11 -O2 -Wall -Wextra -Werror -I"$top/include" -o "$folder/lines" "$top/tests/second/lines.c" \
        "$@"
}

# tests_c LIBRARY LAWS CC [COMMAND..]: runs tests/c, by the command, on a library of rust/capi, with so many messages of
# the laws
tests_c() {
    local test
    for test in "$top"/tests/c/*.c; do
        runs "$3" -std=gnu11 -O1 -Wall -Wextra -I"$top/include" -o "$folder/c" "$test" "$1" -lpthread -ldl -lm
        if [ "${test##*/}" = laws.c ]; then
            runs "${@:4}" "$folder/c" "$2"
        else
            runs "${@:4}" "$folder/c" </dev/null
        fi
    done
}

# reads_no_captures COMMAND..: a linkdump that is built without libpcap says so
reads_no_captures() {
    leaves 1 '' 'linkdump: x: this linkdump is built without libpcap, and reads no captures' "$@" --read x
}

# makes_linkdump: compiles $folder/linkdump, without captures
makes_linkdump() {
    ${CC:-cc} -std=gnu11 -D_GNU_SOURCE -O1 -I"$top/include" -o "$folder/linkdump" "$top"/programs/linkdump*.c
}

# needs_netlink LINKDUMP: else the script is skipped, by what linkdump says where there is none, or no right to it
needs_netlink() {
    local absent='Address family not supported by protocol|Protocol not supported|Operation not supported'
    absent+='|Connection refused|Function not implemented|Operation not permitted|Permission denied'
    if ! "$1" >"$folder/out" 2>"$folder/err"; then
        grep -qxE "linkdump: netlink: ($absent)" "$folder/err" || fails "linkdump fails: $(cat "$folder/err")"
        skips "no netlink: $(cat "$folder/err")"
    fi
}

# copies_tree FOLDER: goes to a copy of the tree without what is built, and takes rt off the path
copies_tree() {
    mkdir -p "$1"
    cd "$top"
    git ls-files -z --cached --others --exclude-standard | tar --null --ignore-failed-read -T - -c 2>/dev/null |
        tar -x -C "$1"
    cd "$1"
    PATH=$(tr ':' '\n' <<<"$PATH" | while read -r it; do [ -e "$it/rt" ] || echo "$it"; done | paste -sd :)
    unset CC LD OBJCOPY AR CPPFLAGS CFLAGS LDFLAGS MAKEFLAGS MFLAGS MAKELEVEL PROVE
}

# flags_for PROCESSOR: those by which the toolchain builds for it
flags_for() {
    awk -v it="$1" '$1 == it { print "--target", $2, "--cpu", $3 }' "$top/scripts/make/targets.txt"
}

# crates_below CRATE: the repository's crates that it stands on, each after those below it, and at the end itself
crates_below() {
    awk -v wanted="$1" '
        /^[a-z]/ { name = $1; sub(/:.*/, "", name); sub(/^[^:]*:/, ""); below[name] = $0 }
        function add(name, words, count, at) {
            if (!(name in below) || name in seen) return
            seen[name] = 1
            count = split(below[name], words, " ")
            for (at = 1; at <= count; at++) add(words[at])
            print name
        }
        END { add(wanted) }' "$top/crates.txt"
}
