#!/usr/bin/env bash
# Builds and tests rust/netlink and rust/serde over the crates that Debian packs.
self=rust
. "$(dirname "$0")/../common.sh"
registry=/usr/share/cargo/registry
export CARGO_TARGET_DIR=$folder/target CARGO_NET_OFFLINE=true
debian=(cargo --config "$top/rust/netlink/debian.toml")

# packed NAME..: whether Debian's packages of these crates are installed, else it says which is not
packed() {
    local name
    for name; do
        compgen -G "$registry/$name-[0-9]*" >/dev/null || { lacks "rust/: no crate $name of Debian"; return 1; }
    done
}

needs cargo
cp -r "$top/rust" "$top/bench" "$folder"
if packed netlink-packet-core netlink-proto netlink-sys tokio tokio-macros futures libc; then
    cd "$folder/rust/netlink"
    runs "${debian[@]}" build --examples
    runs "${debian[@]}" test --doc
    echo 'rust: netlink: the examples are built'
    if has_namespace 'the examples of rust/netlink'; then
        for example in manage moved; do # an alias in Latin-1 hides no link
            runs unshare -rn sh -c 'ip link set lo alias "$(printf "caf\351")"; exec "$0"' \
                "$CARGO_TARGET_DIR/debug/examples/$example"
            [ "$(tail -n 1 "$folder/log")" = 'links left: 1' ]
        done
        runs unshare -rn sh -c '"$0" & sleep 0.7; ip link add v0 type veth peer name v1; ip link del v0; wait' \
            "$CARGO_TARGET_DIR/debug/examples/watch"
        [ "$(grep -c '^new ' "$folder/log") $(grep -c '^gone ' "$folder/log")" = '2 2' ]
        echo 'rust: netlink: the examples run: ok'
    fi
fi
if packed serde serde_derive serde_json; then
    cd "$folder/rust/serde"
    runs "${debian[@]}" build # by itself: for the tests another crate asks serde for its std
    runs "${debian[@]}" test --tests
    echo "rust: serde: $(passed)"
fi
