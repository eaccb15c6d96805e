#!/usr/bin/env bash
# Builds copies of the tree from dist/ alone, with the toolchain off the path and hidden by a mount where that is
# allowed, and runs them: here, by qemu, with musl, from the archive of a release and from Debian's packages.
. "$(dirname "$0")/../common.sh"
if [ -z "$inside" ]; then
    rt=$(command -v rt || true) hiding=()
    mkdir "$folder/empty"
    hidden="mount --bind '$folder/empty' '$(dirname "$(dirname "$(readlink -f "$rt")")")'"
    if [ -n "$rt" ] && unshare -rm sh -c "$hidden" 2>/dev/null; then
        hiding=(unshare -rm sh -c "$hidden && exec \"\$@\"" sh)
    elif [ -n "$rt" ]; then
        lacks 'the toolchain hidden by a mount: it is not allowed here'
    fi
    "${hiding[@]}" "$itself" --inside "$folder"
    exit
fi
copies_tree "$folder/tree"
! command -v rt >/dev/null || fails 'rt is in reach'
read -ra programs <<<"$(sed -n 's/^PROGRAMS = //p' dist/Makefile)"

# tests WHAT: the tests of what was built, of which one line is left
tests() {
    runs sh tests/self_test.sh "${programs[@]}"
    grep skipped "$folder/log" | sed "s/^/dist: $1: /" || true
    echo "dist: $1: $(grep -c 'stored run' "$folder/log") stored runs, ${TESTS:-all tests of tests/c}: ok"
}

# dumps WHAT COMMAND..: linkdump runs, and without libpcap it reads no captures
dumps() {
    leaves 0 "linkdump $(sed -n 's/^#define LINKWIRE_VERSION "\(.*\)"$/\1/p' include/linkwire.h)" '' "${@:2}" --version
    reads_no_captures "${@:2}"
    echo "dist: $1: linkdump: ok"
}

few='calls lists memory laws'

answer=$(echo 00000000000000000000000000000000060003006c6f | make -s run)
[ "$answer" = 'ok 00000000000000000000000000000000070003006c6f0000' ]
make -s build lib >/dev/null
tests here
scripts/test/hardened.sh out
for it in waits faults; do
    python3 "tests/program/$it.py" out "${programs[@]}" | sed 's/^/dist: /'
done
scripts/test/laws.sh out/liblinkwire.a 50000 | sed 's/^/dist: sanitizers: /'
python3 scripts/test/readme.py out/liblinkwire.a out
scripts/test/test_install.sh

if [ "$(uname -m)" != x86_64 ]; then
    lacks 'on an old processor: no x86_64'
elif has 'on an old processor' qemu-x86_64; then
    RUN='qemu-x86_64 -cpu Conroe' TESTS=$few tests 'on an old processor'
fi
if has 'with musl, statically' musl-gcc; then
    copies_tree "$folder/musl"
    # the kernel's headers, after musl's own
    kernel="-O1 -idirafter /usr/include -idirafter /usr/include/$(cc -dumpmachine)"
    make -s CC=musl-gcc CFLAGS="$kernel" LDFLAGS=-static PCAP= all
    CC=musl-gcc CFLAGS=$kernel LDFLAGS=-static TESTS=$few tests 'with musl, statically'
    dumps 'with musl, statically' out/linkdump
fi
gnu=aarch64-linux-gnu
if has aarch64 qemu-aarch64 $gnu-gcc $gnu-ld $gnu-objcopy $gnu-ar; then
    copies_tree "$folder/aarch64"
    make -s CC=$gnu-gcc LD=$gnu-ld OBJCOPY=$gnu-objcopy AR=$gnu-ar PCAP= all
    CC=$gnu-gcc RUN="qemu-aarch64 -L /usr/$gnu" TESTS=$few tests aarch64
    scripts/test/hardened.sh out
    dumps aarch64 qemu-aarch64 -L /usr/$gnu out/linkdump
fi

copies_tree "$folder/archive"
file=$(scripts/release/archive.sh)
cp "$file" "$folder/first"
scripts/release/archive.sh >/dev/null
cmp "$file" "$folder/first"
tar -xf "$file" -C "$folder"
cd "$folder/$(basename "$file" .tar.gz)"
make -s install DESTDIR="$folder/stage"
make -s uninstall DESTDIR="$folder/stage"
[ -z "$(find "$folder/stage" ! -type d)" ]
python3 -B python/backend.py "$folder" >/dev/null
runs make -s check
tail -n 1 "$log" | grep -qx 'self-test passed'
cp dist/heap.c "$folder/heap.c"
echo '/* changed */' >>dist/heap.c
fails_with 'a file is not that of dist/SUMS' make -s check
cp "$folder/heap.c" dist/heap.c
fails_with 'the crates, which are not in this archive' make -s PROVE=1
echo 'dist: the archive: the same bytes twice, built, tested, installed: ok'

if has packages dpkg-buildpackage dh dh_python3 pkg-config; then
    cd "$folder/tree"
    make -s deb >"$folder/packages"
    mkdir "$folder/deb"
    cp out/deb/*.deb "$folder/deb"
    DEB_BUILD_OPTIONS=nocheck make -s deb >/dev/null
    while read -r file; do
        cmp "$file" "$folder/deb/$(basename "$file")"
        dpkg-deb -x "$file" "$folder/root"
    done <"$folder/packages"
    lib=$folder/root/usr/lib/$(dpkg-architecture -qDEB_HOST_MULTIARCH)
    export PKG_CONFIG_SYSROOT_DIR=$folder/root PKG_CONFIG_LIBDIR=$lib/pkgconfig PKG_CONFIG_PATH=
    read -ra flags <<<"$(pkg-config --cflags --libs linkwire)"
    cc -o "$folder/uses" tests/install.c "${flags[@]}"
    [ "$(LD_LIBRARY_PATH=$lib "$folder/uses")" = "lo 1500 $(pkg-config --modversion linkwire)" ]
    cp "${programs[@]/#/$folder/root/usr/bin/}" out/
    TESTS=header tests 'the programs of the packages'
    scripts/test/hardened.sh "$folder/root/usr/bin" "$lib/liblinkwire.so.0"
    "$folder/root/usr/bin/linkdump" --version >/dev/null
    export PYTHONPATH=$folder/root/usr/lib/python3/dist-packages LD_LIBRARY_PATH=$lib PYTHONDONTWRITEBYTECODE=1
    python3 -c 'import linkwire; linkwire.check(linkwire.build([(3, "lo")]))'
    "$folder/root/usr/bin/linkwatch" --version >/dev/null
    echo 'dist: packages: the same bytes twice, unpacked and used by pkg-config: ok'
    if has 'packages: lintian' lintian; then
        tries lintian --no-cfg --display-info "$folder"/deb/*.deb
        ! grep -hv 'initial-upload-closes-no-bugs' "$folder/out" "$folder/err" | grep '^[EW]:\|hardening-' >&2 || exit 1
        echo 'dist: packages: lintian: ok'
    fi
fi
echo 'dist passed'
