#!/usr/bin/env bash
# Packs the archive of a release: the texts, what builds and tests them, the pages and the crate in rust/, and no crates
# of Rattle. It has the same bytes each time, and says the date of the newest version.
. "$(dirname "$0")/../common.sh"
scripts/make/sums.sh check >/dev/null
version=$(sed -n 's/^#define LINKWIRE_VERSION "\(.*\)"$/\1/p' include/linkwire.h)
date=${SOURCE_DATE_EPOCH:-$(date -ud "$(sed -n 's/^## \[[0-9.]*\] - //p' CHANGELOG.md | head -n 1)" +%s)}
name=linkwire-$version
to=$folder/$name
mkdir -p "$to" out
echo 'include dist/Makefile' >"$to/Makefile"
cp -r --parents README.md LICENSE CHANGELOG.md completions dist docs examples include man programs rust \
    python/*.{py,toml} python/linkw*/*.py python/linkwire/py.typed tests/c tests/self_test.sh \
    tests/program/{said.*,lenient.txt} tests/second/{*.c,*.txt,streams.sh,watched.sh} "$to"
rm -rf "$to"/rust/target "$to"/rust/*/target
read -ra programs <<<"$(sed -n 's/^PROGRAMS = //p' dist/Makefile)"
for program in "${programs[@]}"; do
    mkdir "$to/tests/$program"
    for it in stdin stdout args status data; do
        [ ! -e "crates/$program/$it" ] || cp -r "crates/$program/$it" "$to/tests/$program"
    done
done
tar --format=ustar --sort=name --owner=0 --group=0 --numeric-owner --mode=u=rwX,go=rX --mtime="@$date" \
    -C "$folder" -c "$name" | gzip -9n >"out/$name.tar.gz"
echo "$PWD/out/$name.tar.gz"
