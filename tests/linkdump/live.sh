#!/usr/bin/env bash
# Runs linkdump on the running kernel, here and in network namespaces of its own: live.sh LINKDUMP. What needs netlink,
# a command or a right that is not there is 'skipped'. The last line is 'live passed', or what is skipped.
self=live
. "$(dirname "$0")/../../scripts/common.sh"
tests=$top/tests/linkdump
# a program with a sanitizer does not look whether that was loaded first: what is preloaded is
export ASAN_OPTIONS=${ASAN_OPTIONS:-verify_asan_link_order=0}

# wants STATUS OUTPUT ERRORS WORD..: what linkdump with these words has to leave
wants() {
    leaves "${@:1:3}" timeout 20 "$linkdump" "${@:4}"
}

# tells FAULT MESSAGE: it writes nothing else, and fails
tells() {
    local status=0
    with "$1" "$linkdump" >"$folder/out" || status=$?
    if [ "$status" != 1 ] || [ -s "$folder/out" ] || [ "$(grep -vx asked "$folder/err")" != "linkdump: $2" ]; then
        fails "does not tell: $1"
    fi
}

# starts WORD..: linkdump in the background, with its first dump over; where `fault` is set, with that
starts() {
    rm -f "$folder/news" "$folder/err" # what an earlier one wrote is not waited for
    LD_PRELOAD=${fault:+$folder/preloaded.so} KERNEL_FAULT=${fault:-} "$linkdump" "$@" \
        >"$folder/news" 2>"$folder/err" &
    running=$!
    trap 'kill -KILL "$running" 2>/dev/null || true' EXIT
    waits 10 test -s "$folder/news" || fails "$*: no dump"
}

# stops SIGNAL: it ends by it, and its last line is whole
stops() {
    local status=0
    kill "-$1" "$running"
    wait "$running" || status=$?
    trap - EXIT
    if [ "$(kill -l "$status")" != "$1" ] || [ -n "$(tail -c 1 "$folder/news" | tr -d '\n')" ]; then
        fails "$1: status $status"
    fi
}

# the port of linkdump itself, with which the answers to it come
own_port() {
    sed -n '1s/.* \(port=[0-9]*\)$/\1/p' "$folder/news"
}

# hears PATTERN: until such a line is written
hears() {
    if ! waits 10 grep -qE "$1" "$folder/news"; then
        cut -c1-200 "$folder/news" >&2
        fails "does not write $1"
    fi
}

# types FILE: the types of the lines, each once where it repeats
types() {
    grep -o 'type=[a-z]*' "$1" | uniq | xargs | sed 's/type=//g'
}

# holds FILE: whether the interfaces that the lines leave are those that are there
holds() {
    local it
    for it in /sys/class/net/*/ifindex; do
        echo "is  0 $(cat "$it") $(basename "$(dirname "$it")")"
    done | sort >"$folder/there"
    python3 "$tests/model.py" <"$1" | grep '^is  0 ' | sort | cmp -s - "$folder/there"
}

# the bytes of a number, and of a header's first eight, as hexadecimal
word() {
    printf '%08x' "$1" | sed 's/\(..\)\(..\)\(..\)\(..\)/\4\3\2\1/'
}
index_of() {
    word "$(cat "/sys/class/net/$1/ifindex")"
}

# an MTU in a message
mtu() {
    echo "08000400$(word "$1")"
}

wrong_use() {
    wants 2 '' 'linkdump: --all: no such option; see linkdump --help' --all
    wants 2 '' 'linkdump: -a: no such option; see linkdump --help' -ab
    wants 2 '' 'linkdump: --netns: needs a value; see linkdump --help' --netns
    wants 2 '' 'linkdump: --plain=1: takes no value; see linkdump --help' --plain=1
    wants 2 '' "linkdump: 'lo': not expected; see linkdump --help" lo
    wants 2 '' 'linkdump: --every: only with --monitor; see linkdump --help' --every 5
    wants 2 '' 'linkdump: --mask: not with --read; see linkdump --help' --read x --mask 1
    wants 2 '' 'linkdump: --every: not with --read; see linkdump --help' --monitor --every 1 --read -
    wants 2 '' 'linkdump: --host: not with --plain; see linkdump --help' --host h --plain
    wants 2 '' 'linkdump: --host: no name; see linkdump --help' --host ''
    local bad
    for bad in 'a b' ' a' 'a\u0009' '\u000aa' 'a\u007f'; do
        wants 2 '' "linkdump: --host: a blank or a control character in '$bad'; see linkdump --help" \
            --host "$(printf '%b' "$bad")"
    done
    for bad in 256 0x100 -1 ' 1' '' 1x 99999999999999999999; do
        wants 2 '' "linkdump: --family: neither a name nor a number up to 255: '$bad'; see linkdump --help" \
            --family "unspec,$bad"
    done
    wants 2 '' "linkdump: --mask: neither a name nor a number up to 4294967295: 'vfs'; see linkdump --help" \
        --mask 1,vfs
    for bad in 0 0.0001 -1 x 1e5 1.2.3 inf nan '' 1000000001; do
        wants 2 '' "linkdump: --every: no number of seconds, from 0.001 to 1000000000: '$bad'; see linkdump --help" \
            --monitor --every "$bad"
    done
    wants 2 '' 'linkdump: --family: more than 16; see linkdump --help' --family "$(seq -s, 17)"
    wants 0 "linkdump $(sed -n 's/^#define LINKWIRE_VERSION "\(.*\)"$/\1/p' "$top/include/linkwire.h")" '' --version
    "$linkdump" --help >"$folder/out"
    [ "$(head -c 18 "$folder/out")" = 'linkdump [--family' ] || fails 'no help'
    "$linkdump" -h | cmp -s - "$folder/out" || fails 'another help'
}

# names of files and other words on standard error: what is no plain text is escaped
escapes() {
    local given said
    while read -r given said; do
        given=$(printf '%b' "$given")
        wants 2 '' "linkdump: '$said': not expected; see linkdump --help" "$given"
        wants 1 '' "linkdump: --netns ./$said: No such file or directory" --netns "./$given"
    done <<'END'
plain plain
a\x01\x1b[2J\x1f a\u0001\u001b[2J\u001f
\x7f \u007f
\xc2\x80\xc2\x9f \u0080\u009f
\xd8\x9c \u061c
\xe2\x80\x8e\xe2\x80\x8f \u200e\u200f
\xe2\x80\xa8\xe2\x80\xa9\xe2\x80\xaa\xe2\x80\xae \u2028\u2029\u202a\u202e
\xe2\x81\xa6\xe2\x81\xa9 \u2066\u2069
a\\\\b a\\\\b
\xff\x80 \xff\x80
\xc3 \xc3
\xc1\xbf \xc1\xbf
\xe2\x80 \xe2\x80
\xe0\x9f\xbf \xe0\x9f\xbf
\xed\xa0\x80 \xed\xa0\x80
\xf0\x8f\xbf\xbf \xf0\x8f\xbf\xbf
\xf4\x90\x80\x80 \xf4\x90\x80\x80
END
    # next to those that are escaped, and the last of each length
    given='~\xc2\xa0\xdf\xbf\xe2\x80\x90\xe2\x80\xa7\xe2\x80\xaf\xe2\x81\xa5\xe2\x81\xaa\xef\xbf\xbf\xf4\x8f\xbf\xbf'
    said=$(printf '%b' "$given")
    wants 2 '' "linkdump: '$said': not expected; see linkdump --help" "$said"
    said=$(printf '%04999d' 0)
    wants 1 '' "linkdump: --netns ./$said: File name too long" --netns "./$said"
}

# what cannot be written: linkdump WORD..
write_fails() {
    local status=0
    "$linkdump" "$@" >/dev/full 2>"$folder/err" || status=$?
    [ "$status $(cat "$folder/err")" = '1 linkdump: standard output: No space left on device' ] || fails "$*: /dev/full"
    status=0
    "$linkdump" "$@" >&- 2>"$folder/err" || status=$?
    [ "$status $(cat "$folder/err")" = '1 linkdump: standard output: Bad file descriptor' ] || fails "$*: no output"
}

# what ends it: nobody reads any more, and a signal while a pipe is full, of which the lines that were written are whole
ends() {
    local words status=0
    mkfifo "$folder/pipe"
    # shellcheck disable=SC2094 # so that it opens without a reader
    exec 5<>"$folder/pipe" 6>"$folder/pipe" 5<&-
    for words in '' --monitor --help; do
        # shellcheck disable=SC2086 # none or one
        "$linkdump" $words >&6 2>"$folder/err" || status=$?
        [ "$status$(cat "$folder/err")" = 0 ] || fails "$words: a closed pipe"
    done
    exec 6>&-
    (timeout 20 "$linkdump" --monitor 2>"$folder/err"; echo $? >"$folder/status") | head -n 1 >"$folder/out"
    [ "$(cat "$folder/status" "$folder/err")" = 0 ] || fails '--monitor | head -n 1 does not end by itself'
    exec 5<>"$folder/pipe"
    head -c 65000 /dev/zero >"$folder/pipe"
    "$linkdump" --monitor >"$folder/pipe" 2>"$folder/err" &
    running=$!
    waits 10 grep -q '^SigCgt:.*[2367abef]$' "/proc/$running/status" || fails 'does not handle an interrupt'
    sleep 0.3
    kill -INT "$running"
    sleep 0.2
    kill -INT "$running" 2>/dev/null || true
    wait "$running" || status=$?
    exec 5<&-
    [ "$status$(cat "$folder/err")" = 130 ] || fails 'a pipe that is full, and two interrupts'
    rm "$folder/pipe"
}

# the links of two files, with what stands in front of their counters
same_links() {
    cmp -s <(cut -c1-90 "$1") <(cut -c1-90 "$2")
}

# same_lines COUNT: whether the last run wrote the links, after so many requests
same_lines() {
    same_links "$folder/out" "$folder/lines" && asked "$1"
}

# the faults of tests/live/kernel_faults.c, in a namespace, where nothing changes meanwhile
meets_faults() {
    preloads live/kernel_faults -Wpedantic
    "$linkdump" --plain >"$folder/lines"
    local fault wanted said='linkdump: the queue ran over: messages are lost, and the links are asked for again'
    with interrupted "$linkdump" --plain >"$folder/out" || fails 'an interrupted dump'
    same_lines 2 || fails 'does not ask again: interrupted'
    with 'ran over' "$linkdump" --plain >"$folder/out" || fails 'a queue that ran over'
    same_lines 2 || fails 'does not ask again: ran over'
    grep -qx "$said" "$folder/err" || fails 'does not tell: ran over'
    with 'no room' "$linkdump" --plain >"$folder/out" || fails 'a dump that begins later'
    same_lines 1 || fails 'does not wait for a dump that begins later'
    for fault in none interrupted 'ran over'; do # the dump that was dropped has no line
        with "$fault" "$linkdump" >"$folder/out" || fails "$fault"
        wanted="begin new done $(grep -c ' type=new ' "$folder/out")"
        [ "$(types "$folder/out") $(sed -n '$s/.* links=//p' "$folder/out")" = "$wanted" ] ||
            fails "a dump between other lines: $fault"
        wanted=$(grep -c '^asked$' "$folder/err")
        grep -qE " type=begin .* seq=$wanted port=[0-9]+$" "$folder/out" || fails "another number: $fault"
    done
    with refused "$linkdump" --plain >"$folder/out" || fails 'a message that is refused'
    sed '1s/^\(.\{32\}\)..../\10300/' "$folder/lines" >"$folder/damaged"
    same_links "$folder/damaged" "$folder/out" || fails 'does not write a message as it is'
    tells error 'the kernel: Operation not permitted'
    tells 'short error' 'the kernel: Bad message'
    tells length 'the kernel: Bad message'
    tells 'no netlink' 'netlink: Address family not supported by protocol'
    tells 'no right' 'netlink: Operation not permitted'
    for fault in interrupted 'ran over' 'cut off'; do # links and ports are asked for, and once more
        rm -f "$folder/news" "$folder/err"
        LD_PRELOAD=$folder/preloaded.so KERNEL_FAULT=$fault "$linkdump" --monitor >"$folder/news" 2>"$folder/err" &
        running=$!
        trap 'kill -KILL "$running" 2>/dev/null || true' EXIT
        waits 10 asked 2 || fails "--monitor: no dump: $fault"
        wanted=3
        if [ "$fault" = 'cut off' ]; then
            sleep 0.3
            ip link set lo txqueuelen 900
            waits 10 grep -q 'a datagram was cut off' "$folder/err" || fails '--monitor: does not tell: cut off'
            wanted=4
        fi
        waits 10 asked "$wanted" || fails "--monitor does not ask again: $fault"
        hears " seq=$wanted port=[0-9]* family=7 "
        stops INT
        case $fault in
            interrupted) wanted='begin new done begin( new)? done' ;;
            'ran over') wanted='lost begin new done begin( new)? done' ;;
            *) wanted='begin new done begin( new)? done lost begin new done begin( new)? done' ;;
        esac
        types "$folder/news" | grep -qxE "$wanted" || fails "--monitor: other lines: $fault: $(types "$folder/news")"
        if [ "$fault" = 'cut off' ] && [ -n "$(program linkdiff)" ]; then
            "$(program linkdiff)" <"$folder/news" >"$folder/out"
            grep -qE '"ifname":"lo","changes":\[\{"path":"txqlen","old":[0-9]+,"new":900\}\]' "$folder/out" ||
                fails 'linkdiff does not tell what changed while a datagram was cut off'
        fi
    done
    echo 'live: an interrupted dump, a queue that ran over, errors, a datagram that was cut off, no netlink, no right'
}

# the request for each name of a family and of a mask
requests() {
    local word family mask len attribute wanted
    while read -r word family mask; do # the option, the number of the family, and the mask, if one is sent
        len=32 attribute=''
        if [ -n "$mask" ]; then
            len=40 attribute=08001d00$(word "$mask")
        fi
        wanted=$(word "$len")12000103$(word 1)$(word 0)$(printf '%02x%030d' "$family" 0)$attribute
        # shellcheck disable=SC2086 # an option and its value
        with none "$linkdump" --plain ${word/=/ } >"$folder/out" || fails "$word"
        [ "$(sed -n 2p "$folder/err")" = "$wanted" ] || fails "$word: another request, and not $wanted"
    done <<'END'
--family=unspec 0
--family=inet 2
--family=bridge 7 4
--family=inet6 10
--family=packet 17
--family=mpls 28
--family=mctp 45
--family=255 255
--mask=vf 0 1
--mask=brvlan 0 2
--mask=brvlan-compressed 0 4
--mask=skip-stats 0 8
--mask=mrp 0 16
--mask=cfm-config 0 32
--mask=cfm-status 0 64
--mask=mst 0 128
--mask=name-only 0 256
--mask=vf,0x80000000,mst 0 0x80000081
END
    echo 'live: the request for each family and mask'
}

# other namespaces, by name and by path
enters() {
    mount -t tmpfs tmpfs /run
    if ! ip netns add blue 2>/dev/null; then
        echo 'live: skipped: --netns: ip netns makes none'
        return
    fi
    ip -n blue link add in-blue type "$kind" || true
    python3 "$tests/beside.py" "$linkdump" --netns blue
    "$linkdump" --plain --netns blue >"$folder/lines"
    "$linkdump" --plain --netns /run/netns/blue >"$folder/out"
    same_links "$folder/out" "$folder/lines" || fails '--netns: a path leads to other links than a name'
    wants 1 '' 'linkdump: --netns green: No such file or directory' --netns green
    touch /run/netns/red
    wants 1 '' 'linkdump: --netns red: no network namespace' --netns red
    wants 1 '' 'linkdump: --netns /proc/self/ns/uts: no network namespace' --netns /proc/self/ns/uts
    if setpriv --bounding-set=-all --inh-caps=-all true 2>/dev/null; then
        tries setpriv --bounding-set=-all --inh-caps=-all "$linkdump" --netns blue
        [ "$status $(cat "$folder/err")" = '1 linkdump: --netns blue: Operation not permitted' ] || fails 'no right'
    fi
    umount -l /run
}

# families and masks
chooses() {
    local words
    for words in '' '--family unspec' '--family 0 --mask 0' '--mask 0x0,0'; do
        # shellcheck disable=SC2086 # words of an option
        "$linkdump" --plain $words >"$folder/out"
        same_links "$folder/out" "$folder/lines" || fails "$words: other links"
    done
    "$linkdump" --plain --mask skip-stats >"$folder/out"
    if [ "$(wc -c <"$folder/out")" -ge "$(wc -c <"$folder/lines")" ]; then
        fails '--mask skip-stats is not sent'
    fi
    "$linkdump" --plain --family bridge,inet6,unspec,7 >"$folder/out"
    "$linkdump" --plain --family inet6 | grep -vq '^0a00' && fails '--family inet6: other families'
    [ "$(cut -c1-2 "$folder/out" | uniq | xargs)" = '07 0a 00' ] || fails '--family: other families'
    "$linkdump" --plain --mask brvlan --family bridge >"$folder/lines"
    [ "$(wc -c <"$folder/out")" != "$(wc -c <"$folder/lines")" ] || fails '--mask brvlan is not sent'
    echo 'live: families and masks'
    while read -r wanted words; do # the family of a whole dump, or that there is none
        # shellcheck disable=SC2086 # words of an option
        "$linkdump" $words >"$folder/out"
        sed -n 's/.* type=done .* family=\([0-9]*\) links=[0-9]*$/\1/p' "$folder/out" >"$folder/before"
        [ "$(cat "$folder/before")" = "${wanted#-}" ] ||
            fails "$words: $(grep 'type=done' "$folder/out")"
        if [ "$wanted" = - ] && [ "$(types "$folder/out")" != new ]; then
            fails "$words: $(types "$folder/out")"
        fi
    done <<'END'
0 --family unspec
0 --family inet
7 --family bridge
7 --family bridge --mask brvlan
7 --family bridge --mask vf,brvlan-compressed
- --family bridge --mask vf
- --family bridge --mask 0
END
    if [ "$("$linkdump" --host h1 --family unspec,bridge | sed 's/^host=h1 time=[^ ]* type=[a-z]* kernel=.*//' |
        uniq)" != '' ]; then
        fails '--host: a line without it'
    fi
    echo 'live: the lines around a dump, and --host'
}

# a link that goes between two dumps, and between two parts of one
deletes() {
    local index part
    ip link add fault0 type veth peer name fault1
    ip link set fault0 master bridge0
    index=$(cat /sys/class/net/fault0/ifindex)
    {
        "$linkdump" --family unspec,bridge
        ip link del fault0
        "$linkdump" --family unspec,bridge
    } >"$folder/news"
    holds "$folder/news" || fails 'two dumps leave other interfaces'
    [ "$(python3 "$tests/model.py" <"$folder/news" | grep -E "^gone  [07] $index$" | xargs)" = \
        "gone 0 $index gone 7 $index" ] || fails 'a link that went between two dumps'
    for part in unspec bridge inet6; do
        if [ "$part" = inet6 ] && ! "$linkdump" --plain --family inet6 | grep -q '^0a'; then
            continue # it is answered by links of AF_UNSPEC
        fi
        ip link add fault0 type "$kind"
        with deleted "$linkdump" --family "$part" >"$folder/out" || fails "a link that goes within a dump: $part"
        asked 2 || fails "does not ask again for what lacks a link: $part"
        if [ "$(types "$folder/out")" != 'begin new done' ] || grep -v ' seq=2 ' "$folder/out"; then
            fails "a dump within which a link went has lines: $part"
        fi
    done
    echo 'live: a link that goes between two dumps, and within one of each family, without --monitor'
}

# changes as they come, an interface deleted whose index is used again, and its ports'
monitors() {
    local index
    starts --monitor
    ip link set "$base" mtu 1290
    hears "type=new kernel=$(uname -r) seq=[0-9]+ port=[0-9]+ 0.*$(mtu 1290)"
    ip link set port0 nomaster
    hears "type=del .* 0700.{4}$(index_of port0)"
    ip link add again0 index 4711 type "$kind"
    hears "type=new .* 0000.{4}$(word 4711)"
    ip link del again0
    hears "type=del .* 0000.{4}$(word 4711)"
    ip link add other0 index 4711 type "$kind"
    index=$(word 4711)
    hears "type=new .* 0000.{4}$index.*$(printf other0 | od -An -tx1 | tr -d ' \n')"
    [ "$(grep -E " 0000.{4}$index" "$folder/news" | grep -oE 'type=(new|del)' | uniq | xargs)" = \
        'type=new type=del type=new' ] || fails 'the order of an index that is used again'
    ip link set port0 master bridge0
    stops INT
    starts --monitor --plain --family inet6
    ip link set "$base" mtu 1291
    ip link set "$base" down
    ip link set "$base" up
    ip link del other0
    hears "^0000.{4}$index"
    stops TERM
    grep -vE "^0a|^0000.{4}$index" "$folder/news" && fails '--monitor --family inet6: other families'
    starts --monitor --every 0.3
    waits 10 grep -q ' seq=8 ' "$folder/news" || fails '--every does not ask again'
    stops INT
    [ "$(sed -n "s/.* \(seq=[0-9]*\) $(own_port) .*/\1/p" "$folder/news" | uniq | head -n 4 | xargs)" = \
        'seq=1 seq=2 seq=3 seq=4' ] || fails '--every: other requests'
    echo 'live: --monitor: changes, a port that left, an index that is used again, families, --every'
}

# whether the kernel had to drop messages for linkdump
dropped() {
    awk -v id="$running" '$2 == 0 && $3 == id && $9 > 0 { found = 1 } END { exit !found }' /proc/net/netlink
}

# overfills: has the kernel announce more than the socket of linkdump holds
overfills() {
    local try
    for try in $(seq 60); do
        seq 1000 1400 | sed "s/.*/link set $base mtu &/" | ip -batch -
        ! dropped || return 0
    done
    fails "a queue does not run over, after $try times"
}

# whether a whole dump of both families stands behind the line that says that messages are lost
is_followed() {
    sed '1,/ type=lost /d' "$folder/news" >"$folder/out"
    grep -q ' family=7 ' "$folder/out"
}

# runs_over WORD..: where linkdump stands still, what was queued comes first, though a dump is due, then the line that
# says that messages are lost, and then what is there
runs_over() {
    local fault=small index
    ip link add early0 type "$kind"
    index=$(index_of early0)
    starts --monitor "$@"
    hears ' family=7 '
    kill -STOP "$running"
    ip link set early0 mtu 1301
    overfills
    ip link del early0
    kill -CONT "$running"
    hears ' type=lost kernel=[^ ]*$'
    waits 10 is_followed || fails 'after a queue that ran over: no dump'
    stops INT
    is_followed
    grep -qx 'linkdump: the queue ran over: messages are lost, and the links are asked for again' "$folder/err" ||
        fails 'does not tell that a queue ran over'
    if ! sed '/ type=lost /,$d' "$folder/news" | awk -v queued=" 00......$index.*$(mtu 1301)" '
        / type=(begin|done) / { found = 0 } $0 ~ queued { found = 1 } END { exit !found }' ||
        grep -q " 0[07]......$index" "$folder/out"; then
        fails 'what was queued stands before a dump that is due, or after messages were lost'
    fi
    if [ $# = 0 ] && [ "$(types "$folder/out")" != 'begin new done begin new done' ]; then
        fails 'after a queue that ran over: other lines'
    fi
    holds "$folder/news" || fails "$*: after a queue that ran over: other interfaces"
    echo "live: --monitor $*: a queue that ran over is told, and a dump follows"
}

# what linkdiff makes of an interface that went where families are chosen; tests/linkdiff/live.py has the rest
differs() {
    local diff index
    diff=$(program linkdiff)
    if [ -z "$diff" ] || ! "$linkdump" --plain --family inet6 | grep -q '^0a'; then
        echo 'live: skipped: --monitor --family inet6 | linkdiff: linkdiff is not built, or the kernel has no IPv6'
        return
    fi
    ip link add six0 type "$kind"
    index=$(index_of six0)
    starts --monitor --family inet6
    ip link del six0
    hears "type=del .* 0000.{4}$index"
    stops INT
    "$diff" <"$folder/news" >"$folder/out"
    for family in 0 10; do
        grep -q "\"change\":\"gone\",\"ifi-family\":$family,.*\"ifname\":\"six0\"" "$folder/out" ||
            fails "linkdiff does not tell that a link went in the family $family"
    done
    echo 'live: --monitor --family inet6, and linkdiff of its lines: an interface that went'
}

# in the namespace
tells_of_links() {
    for kind in dummy bridge; do
        if ip link add one0 type "$kind" 2>/dev/null; then
            break
        fi
    done
    base=one0
    [ -e "/sys/class/net/$base" ] || skips 'the kernel knows neither dummy nor bridge'
    ip link set "$base" up
    python3 "$tests/beside.py" "$linkdump"
    meets_faults
    requests
    enters
    if ! ip link add veth0 type veth peer name port0 2>/dev/null || ! ip link add bridge0 type bridge 2>/dev/null ||
        ! ip link set port0 master bridge0; then
        skips 'families, --monitor: the kernel knows no veth, or no bridge'
    fi
    ip link add link "$base" name vlan0 type vlan id 5 2>/dev/null || lacks 'a vlan: not of this kernel'
    python3 "$tests/beside.py" "$linkdump"
    "$linkdump" --plain >"$folder/lines"
    chooses
    deletes
    monitors
    runs_over
    runs_over --every 0.001
    differs
    echo 'live passed'
}

linkdump=$(readlink -f "$1")
if [ -n "$inside" ]; then
    tells_of_links
    exit 0
fi
wrong_use
escapes
needs_netlink "$linkdump"
for words in '' '--version' '--help'; do
    # shellcheck disable=SC2086 # none or one
    write_fails $words
done
ends
needs ip python3
[ -d /sys/class/net ] || skips 'no /sys/class/net'
python3 "$tests/beside.py" "$linkdump"
goes_inside "$linkdump"
