#!/usr/bin/env bash
# What can be said of the sources without a proof. All is run, and whatever finds something makes the status 1.
. "$(dirname "$0")/../common.sh"
mapfile -t shell < <(git ls-files '*.sh' .ci/run)
mapfile -t python < <(git ls-files '*.py')
status=0

# looks NAME HAS COMMAND..: what the command says where it fails; NAME is skipped where the command HAS fails
looks() {
    if ! $2 >"$log" 2>&1; then
        lacks "$1: not installed"
    elif "${@:3}" >"$log" 2>&1; then
        echo "$self: $1: ok"
    else
        cat "$log" >&2
        echo "$self: $1: failed" >&2
        status=1
    fi
}

looks lines true python3 scripts/test/lines.py
looks version true python3 scripts/release/version.py
looks 'edits that fit' true python3 scripts/test/edits.py --fit
looks 'rows beside' true python3 scripts/test/rows.py
looks 'functions that are named' true python3 scripts/test/named.py
looks shellcheck 'shellcheck --version' shellcheck "${shell[@]}"
pyflakes=$(command -v pyflakes3 || command -v pyflakes || true)
looks pyflakes "test -n $pyflakes" "$pyflakes" "${python[@]}"
looks groff 'groff --version' bash -c '! groff -man -ww -Tutf8 -z man/* 2>&1 | grep .'
looks mandoc 'command -v mandoc' mandoc -T lint man/*

# the crate in rust/, where any warning is an error and no registry is needed
self='lint: rust'
export CARGO_TARGET_DIR=$folder/target CARGO_NET_OFFLINE=true RUSTFLAGS='-D warnings' RUSTDOCFLAGS='-D warnings'
# the rustc of the distribution, where it is the one that the crate is said to need
oldest=$(sed -n 's/^rust-version = "\(.*\)"/\1/p' rust/Cargo.toml)
/usr/bin/rustc --version >"$folder/rustc" 2>&1 || true
looks 'scripts/erase' true python3 scripts/erase/test_erase.py
looks 'as it is made' 'rustfmt --version' python3 scripts/erase/erase.py check rust
cd rust
looks 'no feature' 'cargo --version' cargo check --no-default-features
looks "rustc $oldest" "grep ^rustc.${oldest}[.] $folder/rustc" /usr/bin/rustc --edition 2021 --crate-type lib \
    --cfg 'feature="std"' --emit metadata --out-dir "$folder" -D warnings src/lib.rs
looks rustfmt 'cargo fmt --version' cargo fmt --check
looks clippy 'cargo clippy --version' cargo clippy --all-targets -- -D clippy::incompatible_msrv \
    -D clippy::must_use_candidate -D clippy::return_self_not_must_use -D clippy::double_must_use
looks rustdoc 'rustdoc --version' cargo doc --no-deps
looks 'public items' 'rustdoc --version' \
    python3 ../scripts/test/rust_items.py "$CARGO_TARGET_DIR/doc/linkwire" items.txt
looks package 'cargo --version' cargo package --offline --allow-dirty --no-verify
exit "$status"
