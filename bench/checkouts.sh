#!/usr/bin/env bash
# Makes and builds the two checkouts that bench/run times: checkouts.sh COMMIT FOLDER makes FOLDER-old of that commit,
# with today's bench/ laid over it, and FOLDER-new of the commit that is checked out here. Run again, it brings both up
# to date. All is built of dist/, and bench/link_bench.c over the library of each.
set -euo pipefail
if [ "$#" != 2 ]; then
    echo 'usage: bench/checkouts.sh COMMIT FOLDER' >&2
    exit 2
fi
top=$(cd "$(dirname "$0")/.." && pwd)
new=$(git -C "$top" rev-parse HEAD)
old=$(git -C "$top" rev-parse --verify "$1^{commit}")

# checks_out COMMIT FOLDER: what earlier runs built there stays, since git passes it over
checks_out() {
    [ -e "$2" ] || git clone -q --no-checkout "$top" "$2"
    git -C "$2" fetch -q "$top" "$1"
    git -C "$2" checkout -qf --detach "$1"
}

builds() {
    make -s -C "$1" build lib >/dev/null
    ${CC:-cc} -std=gnu11 -O2 -I"$1/include" -o "$1/out/link_bench" "$1/bench/link_bench.c" "$1/out/liblinkwire.a"
}

checks_out "$old" "$2-old"
git -C "$2-old" fetch -q "$top" "$new"
git -C "$2-old" checkout -q "$new" -- bench
checks_out "$new" "$2-new"
builds "$2-old"
builds "$2-new"
