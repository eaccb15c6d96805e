#!/usr/bin/env bash
# Compiles all crates by cargo, the contracts erased, and tests them. It needs no registry and no Rattle.
self='test'
. "$(dirname "$0")/../common.sh"
needs cargo
mkdir -p out
python3 scripts/erase/erase.py tests out/erased
export CARGO_TARGET_DIR=$PWD/out/erased-target CARGO_NET_OFFLINE=true
programs=$CARGO_TARGET_DIR/debug
runs cargo test --quiet --tests --manifest-path out/erased/Cargo.toml
echo "test: $(passed), which prove nothing"
scripts/test/second.sh "$programs"
# what no second reader says: builds by LLVM answer so too
makes_lines -DLINES_ALONE
for run in linkshow-whole:all linkshow-whole:more linkshow-whole:mixed linkshow-whole-worded:worded linkdiff:news \
    linkdiff-more:changes linkdiff-turns:turns linkdiff-hosts:hosts linkdiff-worded:worded; do
    what=${run%:*} set=${run#*:}
    "$folder/lines" "$set" | "$programs/${what%%-*}" |
        "$folder/lines" "$set" compare "$what" tests/second/held.txt || fails "$what: rustc makes another one of it"
done
stored program/lenient.txt 3 2 "$programs/linkshow" --lenient
stored program/lenient.txt 3 3 "$programs/linkstate" --lenient
