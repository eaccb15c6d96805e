#!/usr/bin/env bash
# Installs into an empty folder, looks at all that lies there and runs it, and takes all away again.
self=install
. "$(dirname "$0")/../common.sh"
prefix=$folder/usr
make -s -C "$top" install DESTDIR= PREFIX="$prefix"

export PKG_CONFIG_PATH=$prefix/lib/pkgconfig
cd "$folder"
cp "$top/tests/install.c" .
read -ra flags <<< "$(pkg-config --cflags --libs linkwire)"
version=$(pkg-config --modversion linkwire)
${CC:-cc} -o shared install.c "${flags[@]}"
readelf -d shared | grep -q 'NEEDED.*\[liblinkwire\.so\.0\]'
LD_LIBRARY_PATH=$prefix/lib leaves 0 "lo 1500 $version" '' ./shared
${CC:-cc} -static -o static install.c "${flags[@]}"
leaves 0 "lo 1500 $version" '' ./static
leaves 0 'ok 00000000000000000000000000000000070003006c6f0000' '' \
    "$prefix/bin/linkwire" <<< 00000000000000000000000000000000060003006c6f
leaves 0 nothex '' "$prefix/bin/linkstate" <<< 0
for name in linkshow linkdiff; do
    leaves 0 '{"fault":"not-hex"}' '' "$prefix/bin/$name" <<< 0
done
for name in linkdump linkstate linkshow linkdiff; do
    leaves 0 "$name $version" '' "$prefix/bin/$name" --version
done

for page in "$prefix"/share/man/man[13]/link*.[13]; do
    warnings=$(groff -ww -man -Tutf8 "$page" 2>&1 >/dev/null; man --warnings=w -l "$page" 2>&1 >/dev/null)
    [ -z "$warnings" ] || fails "$warnings"
done

for name in linkwire linkshow linkstate linkdiff linkdump linkwatch; do
    bash -c '. "$1" && complete -p "$2"' bash "$prefix/share/bash-completion/completions/$name" "$name" >completed
    grep -qx "complete -F _linkwire $name" completed || fails "bash does not complete $name"
done

# With DESTDIR the paths inside are those without it, and nothing is left after the removal.
as_debian=(DESTDIR="$folder/stage" PREFIX=/usr ZSHDIR=/usr/share/zsh/vendor-completions)
make -s -C "$top" install "${as_debian[@]}"
grep -qx 'prefix=/usr' "$folder/stage/usr/lib/pkgconfig/linkwire.pc"
# each file is one of Debian's packages, of which debhelper is not asked here
find "$folder/stage" ! -type d -printf '/%P\n' | sort >"$folder/installed"
sed -n 's|^usr/|/usr/|p' "$top"/debian/*.install | sed 's|/lib/\*/|/lib/|' | grep -v python3 | sort |
    diff "$folder/installed" - >&2 || fails 'debian/*.install lists other files'
make -s -C "$top" uninstall "${as_debian[@]}"
make -s -C "$top" uninstall DESTDIR= PREFIX="$prefix"
left=$(find "$folder/stage" "$prefix" ! -type d)
[ -z "$left" ] || fails "$left is left"
echo 'install passed'
