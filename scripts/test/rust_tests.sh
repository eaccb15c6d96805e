#!/usr/bin/env bash
# Tests the crate in rust/, the program in docs/USING.md, and the library of rust/capi. It needs no registry.
. "$(dirname "$0")/../common.sh"
needs cargo
# what is built goes with the folder: nothing is kept for a second build, or for a debugger
export CARGO_TARGET_DIR=$folder/target CARGO_NET_OFFLINE=true
export CARGO_INCREMENTAL=0 CARGO_PROFILE_DEV_DEBUG=0 CARGO_PROFILE_TEST_DEBUG=0

cd "$top/rust"
runs cargo test --locked
echo "rust: $(passed)"

# by the oldest rustc that the crate is said to need: a toolchain of rustup, or the distribution's
oldest=$(sed -n 's/^rust-version = "\(.*\)"/\1/p' Cargo.toml)
toolchain=$(rustup toolchain list 2>/dev/null | grep -oE "^${oldest//./\\.}(\.[0-9]+)?-[^ ]+" | head -n 1 || true)
old=(rustup run "$toolchain" cargo)
[ -n "$toolchain" ] || old=(env RUSTC=/usr/bin/rustc RUSTDOC=/usr/bin/rustdoc /usr/bin/cargo)
if [ -n "$toolchain" ] || [[ $(/usr/bin/rustc --version 2>/dev/null) = "rustc $oldest."* && -x /usr/bin/cargo ]]; then
    CARGO_TARGET_DIR=$folder/oldest runs "${old[@]}" test --locked
    echo "rust: by rustc $oldest: $(passed)"
    rm -rf "$folder/oldest"
else
    lacks "the tests by rustc $oldest: no such rustc"
fi

"$top/scripts/test/rust_netlink.sh"

# the library for C by cargo, as processors.sh builds it for others
(cd capi && runs cargo build --locked)
capi=$CARGO_TARGET_DIR/debug/liblinkwire
[ "$(nm -D --defined-only --format=posix "$capi.so" | sed -n 's/^\(linkwire_[a-z_]*\) .*/\1/p' | sort)" = \
    "$(sed -n 's/^ \(linkwire_.*\)@Base .*/\1/p' "$top/debian/liblinkwire0.symbols" | sort)" ] ||
    fails 'the library of rust/capi has other names than debian/liblinkwire0.symbols'
tests_c "$capi.a" 2000 "${CC:-cc}"
echo 'rust: tests/c on the library of rust/capi, and 2000 messages of its laws: ok'

# package NAME KIND: a new one there, which depends on the crate
package() {
    runs cargo new --vcs none --edition 2021 "$2" "$folder/$1"
    (cd "$folder/$1" && runs cargo add --path "$top/rust")
}

package sample --bin
block USING.md rust '<!-- runs: rust -->' >"$folder/sample/src/main.rs"
block USING.md console '<!-- runs: rust -->' | sed 1d >"$folder/wanted"
[ -s "$folder/sample/src/main.rs" ] && [ -s "$folder/wanted" ]
(cd "$folder/sample" && runs cargo build)
"$CARGO_TARGET_DIR/debug/sample" >"$folder/found"
diff "$folder/wanted" "$folder/found"
echo "rust: the page's program: ok"

# the three programs of the first page of the docs, on the kernel
runs cargo build --locked --example list --example watch --example change
if has_namespace 'list, watch and change'; then
    runs unshare -rn sh -ec 'cd "$0"; timeout 30 ./watch 2 & sleep 2
        ip link add v0 type veth peer name v1; ./change v0 1400; wait; ./list
        ! ./change v9 1400; ! ./change' "$CARGO_TARGET_DIR/debug/examples"
    [ "$(grep -cE '^[0-9]+: v[01] is ' "$folder/log") $(grep -cE '^[0-9]+: v0 mtu 1400$' "$folder/log")" = '2 1' ]
    grep -q '^Error: Os { code: 19' "$folder/log"
    grep -q 'usage: change NAME MTU' "$folder/log"
    echo 'rust: list, watch and change run: ok'
fi

# a call of a trait that is not named: rustc names the trait, and says of none that it is private
package untold --lib
{
    awk '/^(enum|struct) [A-Za-z0-9]+$/ { name = $2 } /^  has .*Emitable/ { print name }' items.txt
    printf '%s\n' DefaultNla LinkAttribute Prop VfInfo
} | while read -r name; do
    echo "pub fn of_$name(it: &linkwire::$name) { it.buffer_len(); it.emit(&mut []); }"
done | cat - "$top/tests/rust_untold.rs" >"$folder/untold/src/lib.rs"
calls=$(grep -oE '\.(buffer_len|emit)\(|::parse(_with_param)?\(' "$folder/untold/src/lib.rs" | wc -l)
(cd "$folder/untold" && ! cargo check >/dev/null 2>"$folder/log")
[ "$(grep -c '^error\[E0599\]' "$folder/log") $(grep -c '^error\[' "$folder/log")" = "$calls $calls" ]
[ "$(grep -cE '^[0-9 +|]*use linkwire::(Emitable|Parseable|ParseableParametrized);$' "$folder/log")" -ge "$calls" ]
echo "rust: $calls calls of traits that are not named: rustc names the trait"

runs cargo build --locked --release --example lines
example=$CARGO_TARGET_DIR/release/examples/lines
makes_lines -DLINES_ALONE
export PLACES=$top/tests/second/places.txt
for set in all digits; do
    "$folder/lines" "$set" >"$folder/set"
    for kind in '' state; do
        "$example" ${kind:+"$kind"} <"$folder/set" |
            runs "$folder/lines" "$set" compare "link${kind:-wire}" "$top/tests/second/stored.txt"
        echo "rust: $(cat "$log")"
    done
done
python3 "$top/scripts/test/damaged.py" --write "$folder/set" 100000
for kind in '' state; do
    name=link${kind:-wire} program=$(program "link${kind:-wire}")
    [ -n "$program" ] || { lacks "lines as $name answers them: it is not built" && continue; }
    "$program" <"$folder/set" >"$folder/wanted"
    "$example" ${kind:+"$kind"} <"$folder/set" | cmp - "$folder/wanted"
    answers=$(cut -c 1-7 "$folder/wanted" | cut -d ' ' -f 1 | sort | uniq -c | awk '{ printf ", %s %s", $1, $2 }')
    echo "rust: $(wc -l <"$folder/set") lines, as $name answers them: the same bytes$answers"
done
LINKWIRE_LINES=$folder/set runs cargo test --locked --release --test stored lines -- --nocapture
echo "rust: the calls agree on $(sed -nE 's/^(test .* [.]{3} )?([0-9]+ messages).*/\2/p' "$folder/log")"
