#!/usr/bin/env bash
# Tests the crate in rust/, and the library for C of rust/capi, on processors that the proofs are not of, by qemu-user.
# A processor that lacks something is skipped, and a line names the packages.
. "$(dirname "$0")/../common.sh"
export CARGO_NET_OFFLINE=true CARGO_TARGET_DIR=${CARGO_TARGET_DIR:-$folder/target}
export RUST_BACKTRACE=0 CARGO_INCREMENTAL=0 CARGO_PROFILE_DEV_DEBUG=0 CARGO_PROFILE_TEST_DEBUG=0
# 'cargo test' compiles the crate too by the profile 'test'. At 1 it takes some minutes more, and qemu takes seconds for
# tests that take it minutes at 0; overflow is checked all the same.
export CARGO_PROFILE_DEV_OPT_LEVEL=1 CARGO_PROFILE_TEST_OPT_LEVEL=1
needs cargo rustc python3
count=20000 tested=0

# asks: once, lines, and what the proved programs answer to them, by each encoding; nothing where these are not built
asks() {
    local linkwire linkstate
    [ ! -e "$folder/lines" ] || return 0
    makes_lines -DLINES_ALONE
    linkwire=$(program linkwire) linkstate=$(program linkstate)
    if [ -z "$linkwire" ] || [ -z "$linkstate" ]; then
        lacks 'lines: the programs linkwire and linkstate are not built'
        return
    fi
    python3 "$top/scripts/test/damaged.py" --write "$folder/made" $((count / 2))
    PLACES=$top/tests/second/places.txt "$folder/lines" all >"$folder/all"
    {
        grep -v '^#' "$top/tests/kernels/messages.txt"
        cat "$folder/made"
        awk -v each=$(($(wc -l <"$folder/all") / (count - count / 2) + 1)) 'NR % each == 0' "$folder/all"
    } | awk -v count="$count" 'NR <= count' | tee "$folder/state.asked" >"$folder/canonical.asked"
    "$linkwire" <"$folder/canonical.asked" >"$folder/canonical.answers"
    "$linkstate" <"$folder/state.asked" >"$folder/state.answers"
}

# answers COMMAND..: whether the example answers the lines as the programs do, in its byte order
answers() {
    local it order=${is_turned:+turned.}
    asks
    [ -e "$folder/state.answers" ] || return 0
    for it in canonical state; do
        [ -z "$order" ] || [ -e "$folder/turned.$it.answers" ] || runs python3 "$top/scripts/test/turned.py" \
            "$folder/$it".{asked,answers} "$folder/turned.$it".{asked,answers}
        "$@" "${it/canonical/}" <"$folder/$order$it.asked" | cmp - "$folder/$order$it.answers"
    done
    echo "$self: $name: $(wc -l <"$folder/${order}canonical.asked") lines: the same answers"
}

while read -r name target triplet qemu; do
    emulator=$(command -v "qemu-$qemu" || command -v "qemu-$qemu-static" || true)
    rustc='' # which has the library of this target
    for it in /usr/bin/rustc "$(command -v rustc)"; do
        ! compgen -G "$("$it" --print target-libdir --target "$target" 2>/dev/null)/libstd-*.rlib" >/dev/null ||
            rustc=$it
    done
    runner=("$emulator" -L "/usr/$triplet") loader=/usr/$triplet/lib/ld-linux.so.2 is_turned='' missing=''
    if "$loader" --version >/dev/null 2>&1; then
        runner=("$loader" --library-path "/usr/$triplet/lib")
    elif [ -z "$emulator" ]; then
        missing+=", no qemu-$qemu (qemu-user-static)"
    fi
    command -v "$triplet-gcc" >/dev/null || missing+=", no $triplet-gcc (gcc-$triplet)"
    [ -n "$rustc" ] || missing+=", no std of $target (libstd-rust-dev:$name, or rustup target add $target)"
    [ -z "$missing" ] || { lacks "$name:${missing#,}" && continue; }
    variable=CARGO_TARGET_$(tr a-z- A-Z_ <<<"$target")
    export "${variable}_LINKER=$triplet-gcc" "${variable}_RUNNER=${runner[*]}"
    PATH=$(dirname "$rustc"):$PATH
    export PATH RUSTC=$rustc
    ! "$rustc" --print cfg --target "$target" | grep -q '^target_endian="big"$' || is_turned=1
    cd "$top/rust"
    runs cargo test --locked --target "$target" </dev/null
    echo "$self: $name: $(passed)"
    answers "${runner[@]}" "$CARGO_TARGET_DIR/$target/debug/examples/lines"
    if [ -z "$is_turned" ]; then
        (cd capi && runs cargo build --locked --target "$target" </dev/null)
        tests_c "$CARGO_TARGET_DIR/$target/debug/liblinkwire.a" $((count / 10)) "$triplet-gcc" "${runner[@]}"
        echo "$self: $name: tests/c on the library of rust/capi, its laws on $((count / 10)) messages: ok"
    fi
    tested=$((tested + 1))
done < <(grep -v '^#' "$top/scripts/test/processors.txt")
echo "$self: $tested processors tested"
