#!/usr/bin/env bash
# Times the calls of this library beside those of the crate in rust/, where cargo is installed, of libnl-route-3 and of
# Debian's crate netlink-packet-route, each where it is installed, on made messages and on a fresh dump of the kernel's
# links, which out/linkdump writes: compare.sh LIBRARY [SPEED_LIBRARY], of which the second, typed calls in Rattle that
# nothing installs, is proved and built if it is not given.
self=bench
. "$(dirname "$0")/../scripts/common.sh"
here=$top/bench
registry=${CARGO_REGISTRY:-/usr/share/cargo/registry}
flags=(-std=gnu11 -O2 -Wall -Wextra -Werror -I"$top/include")
wrapped=('-Wl,--wrap=malloc' '-Wl,--wrap=realloc' '-Wl,--wrap=free')
libraries=() versions=()

# Makes one object of archives, in which the names that begin with the first word alone are seen. Its groups are
# dissolved: the linker would keep one of two of a name, and its names are hidden here.
only() {
    ld -r --force-group-allocation --whole-archive "${@:2}" -o "$folder/whole.o"
    objcopy --wildcard --keep-global-symbol="$1*" "$folder/whole.o" "$folder/$1.o"
}

# Proves and builds link_speed, of which `only` makes an object with what it calls of the toolchain.
speed_library() {
    local kit flags
    kit=$(dirname "$(dirname "$(readlink -f "$(command -v rt)")")")
    read -ra flags <<<"$(flags_for x86_64)"
    (cd "$top/crates/link_speed" && runs rt lib "${flags[@]}")
    only bench_ "$top/crates/link_speed/out/liblink_speed.a" "$kit/c/liblibc_c.a"
}

only linkwire_ "$1"
if [ -n "${2:-}" ]; then
    only bench_ "$2"
else
    speed_library
fi

if pkg-config --exists libnl-route-3.0 2>/dev/null; then
    read -ra words <<<"$(pkg-config --cflags libnl-route-3.0)"
    flags+=(-DWITH_LIBNL "${words[@]}")
    read -ra libraries <<<"$(pkg-config --libs libnl-route-3.0)"
else
    echo 'bench: libnl-route-3-dev is not installed: skipped' >&2
fi

# package NAME KIND FILE LINES..: builds bench/NAME.rs as FILE of a package of a library or program, which has these
# dependencies and what follows
package() {
    mkdir -p "$folder/$1/.cargo"
    cp "$here/$1.rs" "$folder/$1/$3"
    {
        printf '[package]\nname = "%s"\nversion = "0.0.0"\nedition = "2021"\n' "$1"
        printf '%s\npath = "%s"\n' "$2" "$3"
        printf '%s\n' "${@:4}"
    } >"$folder/$1/Cargo.toml"
    [ -z "$debian" ] || printf '[source.crates-io]\nreplace-with = "debian"\n[source.debian]\ndirectory = "%s"\n' \
        "$registry" >"$folder/$1/.cargo/config.toml"
    (cd "$folder/$1" && cargo build --quiet --release --offline)
}
library=$'[lib]\ncrate-type = ["staticlib"]'
lto=('[profile.release]' 'lto = true' 'codegen-units = 1')
own="linkwire = { path = \"$top/rust\" }"
# Debian's crate, by cargo with Debian's folder of sources in place of the registry
debian=$(find "$registry" -maxdepth 1 -name 'netlink-packet-route-0.*' 2>/dev/null | sort | tail -1) || true

objects=()
if command -v cargo >/dev/null; then
    # for the processors that the proved build is for
    read -ra target <<<"$(flags_for "$(uname -m)")"
    RUSTFLAGS="-C target-cpu=${target[3]}" CARGO_TARGET_DIR=$folder/target \
        package rust_crate "$library" lib.rs '[dependencies]' "$own" "${lto[@]}"
    only cargo_ "$folder/target/release/librust_crate.a"
    flags+=(-DWITH_CARGO)
    objects+=("$folder/cargo_.o")
    versions+=("$(rustc --version)")
else
    echo 'bench: cargo is not installed: the crate in rust/ is skipped' >&2
fi

if [ -n "$debian" ] && command -v cargo >/dev/null; then
    version=${debian##*-}
    crate="netlink-packet-route = \"=$version\""
    package debian_crate "$library" lib.rs '[dependencies]' "$crate"
    flags+=(-DWITH_CRATE "-DCRATE_VERSION=\"netlink-packet-route $version\"")
    objects+=("$folder/debian_crate/target/release/libdebian_crate.a")
    # a program of both, for typed data: ratios by turns
    package typed_data $'[[bin]]\nname = "typed_data"' main.rs '[dependencies]' "$own" "$crate" \
        'netlink-packet-utils = "0.5"' 'netlink-packet-core = "0.4"' "${lto[@]}"
    # and one for views
    package views $'[[bin]]\nname = "views"' main.rs '[dependencies]' "$own" "$crate" \
        'netlink-packet-core = "0.4"' "${lto[@]}"
else
    echo 'bench: librust-netlink-packet-route-dev or cargo is not installed: skipped' >&2
fi

for program in compare peak; do
    words=("${libraries[@]}")
    [ "$program" = compare ] || words=("${wrapped[@]}")
    "${CC:-cc}" "${flags[@]}" -o "$folder/$program" "$here/$program.c" "$folder/linkwire_.o" "$folder/bench_.o" \
        "${objects[@]}" "${words[@]}" -lm -lpthread -ldl
done

python3 "$here/make_messages.py" "$folder/made" "$folder/growing"
dump=-
if "$here/made_links.sh" "$folder/lines" 2>/dev/null && [ -s "$folder/lines" ]; then
    dump=$folder/dump
    python3 -c 'import struct, sys
for it in map(bytes.fromhex, sys.stdin):
    sys.stdout.buffer.write(struct.pack("<I", len(it)) + it)' <"$folder/lines" >"$dump"
else
    echo 'bench: no dump of the links of this kernel: skipped' >&2
fi
versions=("rattle $(rt version 2>/dev/null | head -1)" "$("${CC:-cc}" --version | head -1)" "${versions[@]}")
echo "$(date +%F), $(grep -m1 '^model name' /proc/cpuinfo | cut -d: -f2- | xargs), Linux $(uname -r)"
printf '%s\n' "${versions[@]}"
echo
pin=()
! command -v taskset >/dev/null || pin=(taskset -c "$(($(nproc) - 1))")
"${pin[@]}" "$folder/compare" "$folder/made" "$dump" "$folder/growing"
echo
"$here/run" ratios "${pin[@]}" "$folder/compare" ratio "$folder/made" "$dump"
if [ -n "$debian" ] && [ -x "$folder/typed_data/target/release/typed_data" ]; then
    echo
    echo "typed data: the crate in rust/, netlink-packet-route $version, and the ratio"
    "${pin[@]}" "$folder/typed_data/target/release/typed_data"
    echo
    echo "views, and what is beside them"
    grep '^dump ' "$here/messages.txt" >"$folder/dumps"
    "${pin[@]}" "$folder/views/target/release/views" "$folder/dumps"
fi
"$folder/peak" "$folder/growing"
