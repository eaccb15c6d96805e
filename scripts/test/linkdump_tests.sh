#!/usr/bin/env bash
# Tests linkdump by each compiler that is there, with libpcap and without, on the running kernel and on captures, with
# sanitizers too, and while links come and go: linkdump_tests.sh [RUNS], of which 15 take some 20 seconds.
. "$(dirname "$0")/../common.sh"
flags=(-std=gnu11 -D_GNU_SOURCE -Wall -Wextra -Wpedantic -Wconversion -Wshadow -Werror -I"$top/include")
read -ra pcap <<< "-DLINKDUMP_PCAP $(pkg-config --cflags --libs libpcap 2>/dev/null || echo -lpcap)"

# builds FILE FLAGS..
builds() {
    ${CC:-cc} "${flags[@]}" -o "$folder/$1" "$top"/programs/linkdump*.c "${@:2}"
}
if ! builds with "${pcap[@]}" 2>"$folder/err"; then
    grep -q 'pcap' "$folder/err" || fails 'linkdump does not compile'
    lacks 'captures: no libpcap'
    pcap=()
fi

for compiler in gcc clang; do
    has 'a compiler' "$compiler" || continue
    CC=$compiler builds by -O2 "${pcap[@]}"
    CC=$compiler builds by -O0
done

# without libpcap it says so, asks the kernel all the same, and needs the C library alone
builds without -O2
reads_no_captures "$folder/without"
"$folder/without" --help | grep -q 'built without libpcap' || fails 'built without libpcap, --help does not say so'
! readelf -d "$folder/without" | grep NEEDED | grep -vE 'libc\.(so|musl)|ld-' >&2 ||
    fails 'built without libpcap, it needs a library'

builds linkdump -O2 "${pcap[@]}"
sanitized=''
if builds sanitized -O1 "${sanitizers[@]}" "${pcap[@]}" 2>"$folder/err"; then
    sanitized=$folder/sanitized
else
    lacks "sanitizers: $(tail -n 3 "$folder/err")"
fi
for program in "$folder/linkdump" ${sanitized:+"$sanitized"}; do
    "$top/tests/linkdump/live.sh" "$program"
    [ "${#pcap[@]}" = 0 ] || python3 "$top/tests/linkdump/captures.py" "$program"
done
python3 "$top/tests/linkdump/hosts.py"
linkdiff=$(program linkdiff)
[ -n "$linkdiff" ] || lacks 'what linkdiff tells of links that come and go: it is not built'
if ! "$folder/linkdump" >/dev/null 2>&1; then
    lacks 'links that come and go: no netlink'
elif has 'links that come and go' ip; then
    python3 "$top/tests/linkdump/churn.py" ${linkdiff:+--linkdiff "$linkdiff"} "$folder/linkdump" "${1:-15}"
fi
[ "${#pcap[@]}" = 0 ] || [ -z "$sanitized" ] || python3 "$top/tests/linkdump/damaged.py" "$sanitized"
echo 'linkdump passed'
