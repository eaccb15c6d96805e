#!/usr/bin/env bash
# Looks that what holds the programs without `rt` tells of slips: test_second.sh FOLDER, where the programs are.
. "$(dirname "$0")/../common.sh"
programs=$(realpath "$1")
makes_lines -DLINES_ALONE
"$folder/lines" all >"$folder/all"

# slip FILE OLD NEW: a copy of the tables in which a row is changed, by which the reader has to differ from linkwire
slip() {
    rm -rf "$folder/crates"
    cp -r --parents crates/*/specs "$folder"
    printf 'file: %s\nold: %s\nnew: %s\n' "${1#*/}" "$2" "$3" >"$folder/it.edit"
    python3 scripts/test/edits.py --apply "$folder/it.edit" "$folder/crates/${1%%/*}"
    CRATES=$folder/crates fails_with 'answers differ' python3 tests/second/check.py --only linkwire,linkstate \
        --lines "$folder/few" "$programs" "$folder/lines"
    echo "second: $1: '$3' in the place of '$2': told"
}
# every fortieth line, and all of the types of link layers
awk 'NR % 40 == 0 || length($0) == 32' "$folder/all" >"$folder/few"
slip link_headline/specs/Kernel.antt 'row 40 u32 Attributes.GsoMaxSegs' 'row 90 u32 Attributes.GsoMaxSegs'
slip link_headline/specs/Kernel.antt '(sized 12 vf_info_vlan_of)' '(filled vf_info_vlan_of)'
slip link_headline/specs/StateRows.antt '(35, Clear)' '(36, Clear)'
slip link_headline/specs/StateRows.antt 'ClearPart 4 12' 'ClearPart 4 8'
slip link_vals/specs/LinkLayerTypeTable.antt 'layer_type_number Can = 280' 'layer_type_number Can = 279'

# differs TEXT COMMAND..: answers that the command changes are told to be others than stored, in a line with that
differs() {
    "${@:2}" <"$folder/right" >"$folder/answers"
    fails_with "$1" "$folder/lines" all compare linkwire "$folder/stored" <"$folder/answers"
}
cp tests/second/stored.txt "$folder/stored"
"$programs/linkwire" <"$folder/all" >"$folder/right"
# an answer in the place of another
differs 'linkwire: place 0 ' awk 'NR < 5000 || is_done { print; next }
    held ~ /^ok/ && /^ok/ && $0 != held { print; print held; is_done = 1; next }
    { if (held != "") print held; held = $0 }'
differs "'refused': stored are" awk 'NR >= 200000 && /^ok/ && !count++ { print "refused"; next } { print }'
differs 'fewer answers than lines' sed '$d'
sed -i 's/^linkwire 40 ok .*$/linkwire 40 ok 1 00000000/' "$folder/stored"
differs 'linkwire: place 40 ' cat
echo 'second: answers that are changed: each is told'

python3 tests/second/laws.py --slips "$programs"

# a number of the crate in rust/
has 'a slip in rust/' cargo || exit 0
cp -r rust "$folder/rust"
sed -i 's/\(IFLA_GSO_MAX_SEGS: u16 =\) 40;/\1 90;/' "$folder/rust/src/generated/link_msg/numbers.rs"
! cmp -s rust/src/generated/link_msg/numbers.rs "$folder/rust/src/generated/link_msg/numbers.rs" ||
    fails 'rust/: the number that is to be changed is not there'
export CARGO_NET_OFFLINE=true CARGO_TARGET_DIR=$folder/target
runs cargo build --quiet --locked --example lines --manifest-path "$folder/rust/Cargo.toml"
fails_with "answers differ: {'rust'" python3 tests/second/check.py --only linkwire --lines "$folder/few" \
    --rust "$CARGO_TARGET_DIR/debug/examples/lines" "$programs" "$folder/lines"
echo 'second: a number that is changed in rust/: it is told'
