#!/usr/bin/env bash
# Holds linkwire_state, and linkdump --monitor | linkdiff, to the running kernel: state_live.sh LIBRARY [FOLDER..],
# where the folders, else that of the library, have the programs. LONG=1 in the environment polls for a minute.
self=state
. "$(dirname "$0")/../common.sh"
if [ -z "$inside" ]; then
    [ $# -gt 1 ] || set -- "$1" "$(dirname "$1")"
    linkdump=$(program linkdump "${@:2}") linkdiff=$(program linkdiff "${@:2}")
    { [ -n "$linkdump" ] && [ -n "$linkdiff" ]; } || fails 'linkdump and linkdiff are not built'
    ${CC:-cc} -std=c11 -D_GNU_SOURCE -O1 -Wall -Wextra -Wpedantic -Werror -I"$top/include" -o "$folder/states" \
        "$top/tests/live/states.c" "$1"
    "$folder/states" >"$folder/out" 2>"$folder/err" || skips "no netlink: $(cat "$folder/err")"
    goes_inside "$linkdump" "$linkdiff"
fi
linkdump=$1 linkdiff=$2 seconds=${LONG:+60} later=2000 done=0 skipped='' kinds=() changes=() dumped=()
trap 'kill $(jobs -p) 2>/dev/null || true' EXIT
{ echo 0 >/proc/sys/net/ipv6/conf/all/disable_ipv6 && echo 0 >/proc/sys/net/ipv6/conf/default/disable_ipv6; } \
    2>/dev/null || echo 'state: skipped: IPv6: the kernel has none, or leaves it off'

makes_change() {
    case $1 in
    set) ip link "$@" ;;
    sysctl) echo "$3" >"/proc/sys/net/$2" ;;
    *) "$@" ;;
    esac
}

# state INDEX: of AF_UNSPEC
state() {
    "$folder/states" | awk -v number="$1" '$1 == 0 && $2 == number { print $4 }'
}

# tells NAME INDEX WHAT: whether what linkdiff wrote since the last change has all of that of the link
tells() {
    local it all values pattern of="\"ifi-family\":[0-9]+,\"ifi-index\":$2,"
    IFS=, read -ra all <<<"${3#\~}"
    for it in "${all[@]}"; do
        values=${it#*=}
        pattern="\"change\":\"changed\",$of.*\{\"path\":\"${it%%=*}\","
        case $it in
        new | gone) pattern="\"change\":\"$it\",$of" ;;
        *=*'>'*) pattern+="\"old\":${values%>*},\"new\":${values#*>}\}" ;;
        *=*) pattern+="(\"old\":[^{}]*,)?\"new\":$values\}" ;;
        esac
        grep -qE "$pattern" "$folder/$1" || return 1
    done
}

# has_all NAME: whether linkdiff has written each link of the families that linkdump --monitor has
has_all() {
    "$folder/states" | awk '$1 != 10 { print $1, $2 }' | sort >"$folder/links"
    sed -n 's/.*"change":"new","ifi-family":\([0-9]*\),"ifi-index":\([0-9]*\),.*/\1 \2/p' "$folder/$1" | sort |
        cmp -s - "$folder/links"
}

# starts NAME WORD..: linkdump --monitor WORD.. | linkdiff, in the background, and what that writes
starts() {
    "$linkdump" --monitor "${@:2}" > >("$linkdiff" >>"$folder/$1") &
    waits 30 has_all "$1" || fails "linkdump --monitor${2:+ ${*:2}} | linkdiff does not tell the links that are there"
}

# sends what veth0 and its peer, a bridge and lo count
traffic() {
    local port
    port=$(cat /sys/class/net/port0/address 2>/dev/null) || true
    ip neigh add 10.9.9.2 lladdr "${port:-02:00:00:00:00:01}" dev veth0 2>/dev/null || true
    while sleep 0.05; do
        for host in 127.0.0.1 ::1 10.9.9.2; do
            (echo >"/dev/udp/$host/9") 2>/dev/null || true
        done
    done
}

# moved INDEX STATE: whether it has another
moved() { [ "$(state "$1")" != "$2" ]; }

reads kinds live/state_kinds.txt
truncate -s 0 "$folder/known" "$folder/unknown"
for it in "${kinds[@]}"; do
    of=known
    # shellcheck disable=SC2086 # words of ip
    ip ${it#* } 2>/dev/null || of=unknown
    echo "${it%% *}" >>"$folder/$of"
done
ip addr add 10.9.9.1/24 dev veth0 2>/dev/null || true
for it in /sys/class/net/*; do
    ip link set "${it##*/}" up 2>/dev/null || true
done
for of in known unknown; do
    sort -uo "$folder/$of" "$folder/$of"
done
echo "state: kinds that the kernel knows: $(xargs <"$folder/known"); skipped: $(xargs <"$folder/unknown")"

# each link has one state while it is polled; a bridge with a spanning tree tells for eight seconds that its ports
# changed
[ ! -e /sys/class/net/bond0 ] || sleep 65 # a minute after it is up LACP says whether a port churns
# router solicitation, and ports that come to forward
waits 300 "$folder/states" 10 >/dev/null 2>&1 || fails 'the states of the links do not come to stand'
starts news
starts polled --every 0.5
truncate -s 0 "$folder/news" "$folder/polled"
traffic &
tries "$folder/states" "${seconds:=10}"
kill $!
[ "$status" = 0 ] || fails 'a state moved, though nobody changed its link'
! grep -q ' moved of 0$' "$folder/out" || fails "no counter moved in $seconds seconds"
echo "state: in $seconds seconds one state a link: $(cat "$folder/out")"
! cat "$folder/news" "$folder/polled" | grep . >&2 ||
    fails 'linkdiff tells of a change, though nobody changed a link'
echo "state: in these linkdump --monitor | linkdiff has no line, with --every 0.5 and without"

# a new state after each change, and a line of linkdiff
reads changes live/state_changes.txt
for it in "${changes[@]}"; do
    read -r link what command <<<"$it"
    index=$(cat "/sys/class/net/$link/ifindex" 2>/dev/null) || true
    before=$(state "$index")
    truncate -s 0 "$folder/news" "$folder/polled"
    # shellcheck disable=SC2086 # a command and its words
    if [ -z "$before" ] || ! makes_change $command 2>/dev/null; then
        skipped="$skipped, $command"
        continue
    fi
    waits 3 moved "$index" "$before" || fails "the state of $link is the same after: $command"
    # until both have a line of the change, the one only where the kernel announces it
    done=$((done + 1)) is_news=''
    [[ $what == '~'* ]] || ! waits 10 tells news "$index" "$what" || is_news=1
    if ! waits 30 tells polled "$index" "$what"; then
        cat "$folder/polled" >&2
        fails "linkdump --monitor --every 0.5 | linkdiff has no $what of the link $index after: $command"
    fi
    [ -z "$is_news" ] || continue
    # whether the one has it, once it has a change of lo that was made later
    ip link set lo txqueuelen "$((++later))"
    waits 30 tells news 1 "txqlen=$later" || fails 'linkdump --monitor | linkdiff does not tell of lo'
    tells news "$index" "$what" || dumped+=("$command")
done
echo "state: a new state after each of $done changes; skipped:${skipped#,}"
announced=$((done - ${#dumped[@]})) it=$(printf ', %s' "${dumped[@]}")
echo "state: linkdump --monitor | linkdiff tells each of $done changes: $announced as the kernel announces them," \
    "and by the next dump alone:${it#,}"
[ ! -e /sys/class/net/bridge0 ] || [ ! -e /sys/class/net/veth0 ] || [ "$done" -ge 50 ] ||
    fails 'fewer than fifty changes'
[ "$done" -lt 50 ] || [ "$announced" -ge 40 ] || fails 'fewer than forty changes that the kernel announces'
