#!/usr/bin/env bash
# Refuses each allocation of the calls that take memory in turn, by the program that the gate left. Its call alone says
# so, and all others return what they return in the last run, where none is refused.
. "$(dirname "$0")/../common.sh"
program=$top/crates/parse_once/out/parse_once
command -v rt >/dev/null || skips "no rt, which alone makes ${program#"$top"/}"
[ -x "$program" ] || fails "there is no ${program#"$top"/}, which the gate makes"
preloads program/refuse_allocation
calls=(parse clone_in to_vec reads_back canonical same_message parse_before_fault list_from)

# What a message of this family and of these attributes means, as it is printed.
message() {
    local -A families=([00]=Unspec [02]=Inet [07]=Bridge [0a]=Inet6)
    printf 'LinkMessage { header: LinkHeader { interface_family: %s, index: 0, ' "${families[$1]}"
    printf 'link_layer_type: Netrom, flags: LinkFlags(0), change_mask: LinkFlags(0) }, attributes: '
    sed -e 's/\[/List { vec: [/g' -e 's/\]/] }/g' -e 's/</Bytes { vec: [/g' -e 's/>/] }/g' \
        -e 's/"[^"]*"/Text { string: & }/g' \
        -e 's/kept(\([0-9]*\), \([0-9]*\))/DefaultNla { kind: \1, value: [\2] }/g' <<<"[$2] }"
}

# What the program prints where this allocation is refused.
answers() {
    refusing "$1" "$program" <"$folder/message" || echo "status $?"
}

# each allocation on each message is refused, those of one call after those of the other; then none is
total=0 rows=() zeros=000000000000000000000000000000
reads rows program/refused_parse.txt
for ((at = 0; at < ${#rows[@]}; at += 2)); do
    read -r family attributes text name <<<"${rows[at]}"
    allocation=1
    means=$(message "$family" "${rows[at + 1]}")
    # how many lists, texts and bytes it has, each of which takes memory
    places=$(grep -oE 'vec: \[|string: "|value: \[' <<<"$means" | wc -l)
    want=$(printf '%s\n' "parse: $means" "clone_in: $means" "to_vec: $family$zeros$text" "reads_back: true" \
        "canonical: $family$zeros$text" "same_message: true" "parse_before_fault: ($means, None)" \
        "list_from: [Vf, SkipStats, Other(256)]")
    printf '%b' "$(printf '%s' "$family$zeros$attributes" | sed 's/../\\x&/g')" >"$folder/message"
    for call in "${calls[@]}"; do
        refused=$(printf '%s\n' "$want" | sed "s/^$call: .*/$call: out of memory/")
        count=0
        while [ "$(answers "$allocation")" = "$refused" ]; do
            allocation=$((allocation + 1))
            count=$((count + 1))
        done
        case $call in
        parse | clone_in | parse_before_fault) ((count >= places)) ;;
        reads_back) ((count > places)) ;;
        same_message) ((count == (${#text} > 480 ? 2 : 0))) ;; # short encodings are compared without memory
        to_vec | canonical) ((count == 1)) ;;
        *) ((count > 0)) ;;
        esac || fails "$name: of $call $count allocations are refused, of $places places: $(answers "$allocation")"
        total=$((total + count))
    done
    answer=$(answers "$allocation")
    [ "$answer" = "$want" ] || fails "$name: $answer, not $want"
    [ ! -e "$folder/refused" ] || fails "$name: allocation $allocation is refused, and no call says so"
done
echo "refused_parse: $total allocations on $((${#rows[@]} / 2)) messages refused in turn: ok"
