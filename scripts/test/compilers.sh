#!/usr/bin/env bash
# Compares what other compilers make of programs and library with what is stored of LLVM's: compilers.sh [--library].
# The gate and `dist.sh --by-rattle` leave NAME.by-rattle in crates/NAME/out; rustc makes the library of rust/capi.
. "$(dirname "$0")/../common.sh"
own="the toolchain's compiler"

# same WHO SET NAME FILE: what is read is what FILE has of this name
same() {
    "$folder/lines" "$2" compare "$3" "tests/second/$4.txt" >"$folder/told" || fails "$1 makes another one of it"
    echo "compilers: by $1: $(cat "$folder/told")"
}

# calls WHO LIBRARY WORD..: the calls of a library that another compiler made
calls() {
    local set
    makes_lines "${@:2}"
    for set in all more mixed; do
        "$folder/lines" "$set" calls | same "$1" "$set" calls stored
        "$folder/lines" "$set" held | same "$1" "$set" held held
    done
}

# each takes two minutes of the processor's time at most
ulimit -t 120
if [ "${1:-}" = --library ]; then
    library=crates/link_c/out/liblink_c.by-rattle.a
    if [ -e "$library" ]; then
        calls "$own" "$library" dist/heap.c
    else
        lacks "the library by $own: it has not been built"
    fi
    if has 'the library by rustc' cargo; then
        CARGO_NET_OFFLINE=true runs cargo build --release --manifest-path rust/capi/Cargo.toml --target-dir out/capi
        calls rustc out/capi/release/liblinkwire.a -lgcc_s -lpthread -ldl -lm
    fi
else
    mkdir "$folder/by"
    for name in linkwire linkstate linkshow linkdiff; do
        cp "crates/$name/out/$name.by-rattle" "$folder/by/$name" 2>/dev/null ||
            skips "$name: the gate has not built it a second time"
    done
    makes_lines -DLINES_ALONE
    for set in all digits more mixed; do
        "$folder/lines" "$set" >"$folder/set"
        for it in linkwire linkstate 'linkstate --lenient' linkshow; do
            # shellcheck disable=SC2086
            "$folder/by/"$it <"$folder/set" | same "$own" "$set" "${it/ -/}" stored
        done
    done
    tests/second/held.sh "$folder/by" >"$folder/held"
    grep -v '^#\|^held ' tests/second/held.txt | diff - "$folder/held" >&2 || fails "$own makes another one of it"
    echo "compilers: by $own: linkshow and linkdiff: $(wc -l <"$folder/held") sums: the same"
fi
