#!/usr/bin/env bash
# Runs what docs/STORE.md has, in a network namespace: store_tests.sh LIBRARY [LINKSTATE]; LIBRARY is the shared one.
. "$(dirname "$0")/../common.sh"
if [ -z "$inside" ]; then
    library=$(realpath "$1") linkstate=${2:-$(program linkstate)}
    python3 -c 'import sqlite3' 2>/dev/null || skips 'no sqlite3 in python3'
    makes_linkdump
    goes_inside "$library" "${linkstate:+$(realpath -m "$linkstate")}"
fi
library=$1 linkstate=$2

# wants WHAT FOUND WANTED
wants() {
    [ "$2" = "$3" ] || fails "$1: $2 and not $3"
    echo "store: $1: $2"
}

# a link that is the same each time that it is made
makes_again() {
    ip link add index 4242 name again0 address 02:00:00:00:00:07 type veth peer index 4243 name again1 \
        address 02:00:00:00:00:08
}

sqlite() {
    LINKWIRE=$library PYTHONPATH=$top/python runs python3 -B "$top/examples/store.py" "$folder/links.db" "$@"
}

# rows WHAT [INDEX]: of all, or of a link of AF_UNSPEC
rows() {
    python3 -c 'import sqlite3, sys; print(*sqlite3.connect(sys.argv[1]).execute(sys.argv[2]).fetchone())' \
        "$folder/links.db" "SELECT $1 FROM stretch ${2:+WHERE family = 0 AND ifindex = $2}"
}

# stands: whether no state moves for five seconds
stands() {
    rm -f "$folder/links.db"
    sqlite 50 0.1
    [ "$(rows 'count(*) - sum(is_open)')" = 0 ]
}

# polls [FOLDER [STATUS]]: one poll; a program in FOLDER stands for another of its name
polls() {
    PATH=${1:+$1:}$PATH tries bash "$folder/store.sh" "$folder/store"
    [ "$status" = "${2:-0}" ] || fails "the store in a folder: status $status: $(cat "$folder/err")"
}

# kept WHAT WANTED: how many lines the files of the interfaces have
kept() {
    wants "$1" "$(cat "$folder"/store/links/* | wc -l)" "$2"
}

# last_has PATTERN: whether the last line of the store of news of the index 4242 has it
last_has() {
    tail -n 1 "$folder/news/0092100000" 2>/dev/null | grep -q "$1"
}

ip link add veth0 type veth peer name veth1 2>/dev/null || skips 'the kernel knows no veth'
ip link add bridge0 type bridge 2>/dev/null && ip link set veth1 master bridge0
for link in /sys/class/net/*; do
    ip link set "${link##*/}" up
done
waits 120 stands || fails 'the states of the links do not come to stand'
rm -f "$folder/links.db"
sqlite 100 0.05
wants 'rows of a hundred idle polls, one a link' "$(rows 'count(*)')" "$(rows 'sum(is_open)')"
index=$(cat /sys/class/net/veth0/ifindex) steps=()
reads steps live/store_steps.txt
for it in "${steps[@]}"; do
    IFS=, read -r command column link wanted what <<<"$it"
    [ -z "$command" ] || { $command && sqlite; }
    [ -z "$what" ] || wants "$what" "$(rows "$column" "${link/veth0/$index}")" "$wanted"
done

[ -x "$linkstate" ] || skips 'a store in a folder: linkstate is not built'
PATH=$folder:$(dirname "$linkstate"):$PATH
block STORE.md bash >"$folder/store.sh"
for ((count = 0; count < 100; count++)); do
    polls
done
links=$(find "$folder/store/links" -type f | wc -l)
kept 'lines of a hundred idle polls in a folder, one a link' "$links"
# a message with a stray byte at its end
index=$(printf %08x "$(cat /sys/class/net/veth0/ifindex)" | sed 's/\(..\)\(..\)\(..\)\(..\)/\4\3\2\1/')
mkdir "$folder/stub"
script "$folder/stub/linkdump" "'$folder/linkdump' \"\$@\" | sed '/^00......$index/s/\$/00/'"
for count in 1 2; do
    polls "$folder/stub"
    wants 'links that are refused and told' "$(grep -c "^refused 00......$index.*00\$" "$folder/err")" 1
    polls
done
kept 'lines after a link was refused, and was not, twice' "$links"
script "$folder/stub/linkdump" "'$folder/linkdump' \"\$@\" | head -n 1" 'exit 1'
polls "$folder/stub" 1
polls
kept 'lines after a linkdump that failed' "$links"
ip link set veth0 mtu 1400
polls
kept 'lines after a change' $((links + 1))
ip link del veth0
polls
polls
wants 'links that are gone, a veth and its peer' "$(cat "$folder"/store/links/* | grep -c ' gone$')" 2
for line in "$folder"/store/[0-9]*-[0-9]*/*; do
    [ "$(basenc --base16 -d <<<"$(tr a-f A-F <"$line")" | sha256sum | cut -d ' ' -f 1)" = "${line##*/}" ] ||
        fails 'a file is not named by its encoding'
done

block STORE.md sh >"$folder/news.sh"
setsid bash -uo pipefail "$folder/news.sh" "$folder/news" &
# shellcheck disable=SC2064 # as it is now
trap "kill -- -$! 2>/dev/null || true" EXIT
waits 10 test -e "$folder/news/0001000000" || true
reads steps live/store_news.txt
for it in "${steps[@]}"; do
    ${it%%,*}
    waits 10 last_has "${it#*,}" ||
        fails "news: ${it#*,} is not the last: $(cut -c1-60 "$folder"/news/0092100000 2>&1)"
done
wants 'lines of an index that was used twice, that tell that it went' \
    "$(grep -c ' type=del ' "$folder/news/0092100000")" 2
