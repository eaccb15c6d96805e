#!/usr/bin/env bash
# Tries the edits of the lists tests/edits/CRATE.txt: a test has to refuse each. With WORDS those whose headlines have
# them: tested_edits.sh [WORDS]
. "$(dirname "$0")/../common.sh"
needs cargo
shopt -s nullglob
cp -r --parents crates.txt scripts crates/*/{src,args,stdin,stdout} "$folder"
export CARGO_TARGET_DIR=$folder/target CARGO_NET_OFFLINE=true

# Erases the contracts of the copy, and runs its tests.
tests() {
    rm -rf "$folder/erased/src"
    python3 "$folder/scripts/erase/erase.py" tests "$folder/erased" >/dev/null
    cargo test --quiet --tests --no-fail-fast --manifest-path "$folder/erased/Cargo.toml" 2>&1
}

tests >"$log" || fails 'the tests fail without an edit'
failed=0
for list in tests/edits/*.txt; do
    name=$(basename "$list" .txt)
    python3 scripts/test/edits.py "$list" "$folder/edits/$name" "${1:-}"
    for edit in "$folder/edits/$name"/*.edit; do
        python3 scripts/test/edits.py --apply "$edit" "$folder/crates/$name"
        tests >"$log" || true
        count=$(awk '/^test result: FAILED/ { sum += $6 } END { print sum + 0 }' "$log")
        if [ "$count" != 0 ]; then
            echo "$name/$(basename "$edit"): refused by the tests: $count fail"
        else
            echo "$name/$(basename "$edit"): NOT REFUSED" >&2
            tail -n 20 "$log" | cut -c 1-200 >&2
            failed=1
        fi
        rm -rf "$folder/crates/$name/src"
        cp -r "crates/$name/src" "$folder/crates/$name/"
    done
done
exit "$failed"
