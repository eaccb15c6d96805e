#!/usr/bin/env bash
# Runs examples/c/manager.c in a network namespace, on a kernel that does what it seldom does too: live_tests.sh LIBRARY
. "$(dirname "$0")/../common.sh"
manager=$folder/manager
# a program with a sanitizer does not look whether that was loaded first: what is preloaded is
export ASAN_OPTIONS=verify_asan_link_order=0
if [ -z "$inside" ]; then
    echo '#include <libmnl/libmnl.h>' | ${CC:-cc} -E - >/dev/null 2>&1 || skips 'manager: no libmnl'
    # compiles LIBRARY FLAG..
    compiles() {
        ${CC:-cc} -std=c11 -D_GNU_SOURCE -O1 -Wall -Wextra -Wpedantic -Wconversion -Wshadow -Werror -I"$top/include" \
            "${@:2}" -o "$manager" "$top/examples/c/manager.c" "$1" -lmnl
    }
    compiles "$1" "${sanitizers[@]}" 2>/dev/null || { lacks 'manager with sanitizers' && compiles "$1"; }
    makes_linkdump
    needs_netlink "$folder/linkdump"
    goes_inside "$@"
fi

# tells FAULT MESSAGE: the example prints nothing else, and fails
tells() {
    { ! with "$1" "$manager" >"$folder/out" && [ ! -s "$folder/out" ] &&
        grep -qx "manager: $2" "$folder/err"; } || fails "manager does not tell: $1"
}

# refused WORDS ERROR WORD..: the example fails, and tells what the kernel says of it, if it does, and the error
refused() {
    tries "$manager" "${@:3}"
    { [ "$status" != 0 ] && [ ! -s "$folder/out" ] && grep -qx "manager: $2" "$folder/err" &&
        { [ -z "$1" ] || grep -qx "manager: the kernel says: $1" "$folder/err"; }; } ||
        fails "manager ${*:3} does not tell: $1: $2"
}

# shown LINE: whether the example prints this line
shown() {
    "$manager" | grep -qx "$1" || fails "manager does not print: $1"
}

ip link add veth0 type veth peer name port0 2>/dev/null || lacks 'the kernel knows no veth'
ip link add bridge0 type bridge 2>/dev/null || lacks 'the kernel knows no bridge'

# the faults of tests/live/kernel_faults.c, while nothing changes
preloads live/kernel_faults -Wpedantic
"$manager" >"$folder/links"
for fault in 'ran over' interrupted; do
    { with "$fault" "$manager" >"$folder/out" && cmp -s "$folder/out" "$folder/links" && asked 2; } ||
        fails "manager does not ask again: $fault"
done
tells error 'Operation not permitted'
tells 'short error' 'Bad message'
{ with refused "$manager" >"$folder/out" &&
    [ "$(wc -l <"$folder/out")" = $(($(wc -l <"$folder/links") - 1)) ] &&
    grep -qx 'manager: a message is refused: an attribute shorter than its header' "$folder/err"; } ||
    fails 'manager does not tell that a message is refused'
echo 'live: manager: a queue that ran over, a dump that was interrupted, errors, a message that is refused'

# a link is kept of which the alias is refused, a text that is not UTF-8, and that is told
if ip link set lo alias "$(printf 'caf\351')" 2>/dev/null && [ -s /sys/class/net/lo/ifalias ]; then
    line="manager: IFLA_IFALIAS of link $(cat /sys/class/net/lo/ifindex) is refused: a text that is not UTF-8"
    tries "$manager"
    { [ "$status $(cat "$folder/err")" = "0 $line" ] && grep -q '^lo ' "$folder/out"; } ||
        fails 'manager does not keep a link of which the alias is refused'
    ip link set lo alias ''
    echo 'live: manager: keeps a link with an alias in Latin-1, and tells it'
else
    lacks 'manager: an alias in Latin-1'
fi

# links of the kinds that the kernel knows
made='' link=''
if "$manager" add veth made1 made2 2>"$folder/err"; then
    shown 'made1 ether down mtu 1500 kind veth'
    shown 'made2 ether down mtu 1500 kind veth'
    made=' veth' link=made1
fi
if "$manager" add vxlan made0 42 192.0.2.1 2>"$folder/err"; then
    shown 'made0 ether down mtu [0-9]* kind vxlan'
    refused 'VXLAN ID must be lower than 16777216' 'Numerical result out of range' \
        add vxlan made9 16777216 192.0.2.1
    made="$made vxlan" link=made0
fi
[ -n "$made" ] || skips 'manager: the kernel knows neither veth nor vxlan'
if "$manager" add vlan made3 "$link" 7 2>"$folder/err"; then
    shown 'made3 ether [a-z]* mtu [0-9]* kind vlan id 7'
    made="$made vlan"
fi
refused '' 'File exists' add "${made##* }" "$link" "$link" 7
"$manager" set "$link" 1400 desk || fails 'manager does not set'
shown 'desk ether [a-z]* mtu 1400 kind .*'
[ "$(cat /sys/class/net/desk/mtu)" = 1400 ] || fails 'manager has not set the MTU'
refused 'mtu greater than device maximum' 'Invalid argument' set desk 70000 desk
refused '' 'No such device' set none 1400 desk
echo "live: manager: makes$made, sets, and tells what the kernel says"
