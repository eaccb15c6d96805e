#!/usr/bin/env bash
# Looks that costs.py names what got dearer.
. "$(dirname "$0")/../common.sh"
shopt -s inherit_errexit
texts=$folder/texts

# costs ROW WORD..: compares one row over the texts
costs() {
    python3 scripts/measure/costs.py --texts "$texts" "$@" 2>&1
}

# names TEXT ROW WORD..: it fails, a line that it prints has the text, and each line has it or is of this row
names() {
    local said line
    if said=$(costs "${@:2}") || grep -vF -e "$1" -e "costs: $2: " <<<"$said" >&2; then
        fails "this was to be of '$1': $said"
    fi
    line=$(grep -F -m 1 -e "$1" <<<"$said") || fails "no line has '$1': $said"
    echo "test_costs: named: ${line#costs: }"
}

# slips CALLED PART: in the text of linkwire all calls of CALLED go to a function that also does that part of slips.s
slips() {
    cp dist/x86_64/*.s "$texts"
    sed -i "s/\b$1@PLT/slipped/" "$texts/linkwire.s"
    sed -n "/^# begins/,/^#/p; /^# $2/,/^#/p; /^# ends/,\$p" scripts/measure/costs/slips.s |
        sed "s/CALLED/$1/" >>"$texts/linkwire.s"
}

mkdir "$texts"
cp dist/x86_64/*.s "$texts"
said=$(costs linkwire/dumps linkwire_check/dumps)
case $said in
*skipped*) echo "test_costs: ${said#costs: }" && exit ;;
'costs: 2 rows hold'*) ;;
*) fails "$said" ;;
esac

slips read copies
names ' steps of the C library a line, and at most ' linkwire/dumps

slips read 'goes over it'
names ' instructions a line, and at most ' linkwire/dumps

slips rattle_alloc 'asks twice'
names ' requests for memory a line, and at most ' linkwire/dumps

cp dist/x86_64/*.s "$texts"
sed -i 's/^linkwire_check:/&\n\tmovl $100, %eax\n.Lwaits:\n\tdecl %eax\n\tjnz .Lwaits/' "$texts/link_c.s"
names 'linkwire_check/dumps: ' linkwire_check/dumps linkwire_next/dumps

slips write 'writes by another call'
names 'linkwire.s calls what nothing counts: writev' linkwire/dumps

cp dist/x86_64/*.s "$texts"
awk '$1 == "linkwire" && $2 == "dumps" { $3 *= 1.003 } { print }' tests/costs.txt >"$folder/rows"
names ': lower the row, which has ' linkwire/dumps --rows "$folder/rows"
sed -i '/^linkwire dumps /d' "$folder/rows"
names 'linkwire/dumps: has no row' linkwire/dumps --rows "$folder/rows"
