#!/usr/bin/env bash
# Looks that what does not fit is told, and not built. A stand-in takes the place of rt. The texts in out/texts, of
# `dist.sh --compare`, are compared where there are any.
. "$(dirname "$0")/../common.sh"
mkdir -p "$folder/bin" "$folder/rt" "$folder/c" "$folder/headers"
copies_tree "$folder/tree"
PATH=$folder/bin:$PATH
arch=$(cc -dumpmachine | sed 's/-.*//')
text=dist/$arch/linkwire.s

# tells TEXT COMMAND..: it ends with status 1, or 2 of make, and its one line has the text
tells() {
    local wanted=1
    [ "$2" != make ] || wanted=2
    tries "${@:2}" </dev/null
    [ "$status $(cat "$folder/out" "$folder/err" | grep -c .) $(grep -cF "$1" "$folder/err")" = "$wanted 1 1" ] ||
        fails "status $status of '${*:2}', which was to tell '$1'"
    echo "test_dist: $1: ok"
}

# without FILE COMMAND..: runs the rest without this file
without() {
    mv "$1" "$folder/away"
    "${@:2}"
    mv "$folder/away" "$1"
}

# changes FILE WORD..: changes a file by sed, has the rest told, and puts it back
changes() {
    local was
    was=$(mktemp -p "$folder")
    cp "$1" "$was"
    sed -i "$2" "$1"
    ! cmp -s "$1" "$was" || fails "$1 has nothing that '$2' changes"
    "${@:3}"
    cp "$was" "$1"
}

# an instruction becomes another of the same size
instruction='0,/^\taddq\t/s//\tsubq\t/'
[ "$arch" = x86_64 ] || instruction='0,/^\tadd\t/s//\tsub\t/'
scripts/make/sums.sh check | grep -qx 'dist: the sums fit'
# told TEXT [GOAL]: by the sums, and where something is built
told() {
    tells "$1" scripts/make/sums.sh check
    tells "$1" make -s "${2:-run}"
}
changes "$text" "$instruction" told "$text is not the text of dist/SUMS"
changes dist/SUMS "s|^....\(.*  $text\)|0000\1|" told "$text is not the text of dist/SUMS"
changes crates/nla_wire/src/buffer.rt '$a// changed' told 'crates/nla_wire/src/buffer.rt changed since dist/ was made'
changes crates.txt 's/^link_msg: /link_msg: memchr /' \
    told 'the line of link_msg in crates.txt changed since dist/ was made'
touch crates/link_msg/src/another.rt
told 'crates/link_msg/src/another.rt changed since dist/ was made'
rm crates/link_msg/src/another.rt
without crates/link_msg/src/lib.rt told 'crates/link_msg/src/lib.rt changed since dist/ was made'
without crates.txt told 'crates.txt is missing'
for it in dist/{heap.c,errno.c,liblinkwire.map,Makefile} Makefile include/linkwire.h programs/linkdump.c; do
    changes "$it" '1s/$/ /' told "$it is not the file of dist/SUMS: make sums writes its sum anew" all
done
without dist/heap.c tells 'dist/heap.c is missing' scripts/make/sums.sh check
# its sum is made anew, and no other
cp dist/SUMS "$folder/sums"
summed() {
    make -s sums
    [ "$(diff "$folder/sums" dist/SUMS | sed -n 's/^[<>] [0-9a-f]*//p' | xargs)" = 'dist/heap.c dist/heap.c' ] ||
        fails 'make sums: no sum, or other sums'
    scripts/make/sums.sh check >/dev/null
    [ "$(echo 0 | make -s run)" = nothex ]
}
changes dist/heap.c '$a/* changed */' summed
make -s sums
cmp dist/SUMS "$folder/sums"
sed '/^#/d; /  dist\/heap.c$/d' dist/SUMS | sha256sum --quiet -c -
echo 'test_dist: make sums: ok'

named() {
    [ "$(scripts/make/sums.sh unfit "$arch" linkwire link_c | xargs)" = "$1" ] ||
        fails "sums.sh unfit does not name '$1'"
}
named ''
changes crates/nla_wire/src/nla_read.rt '$a// changed' named 'linkwire link_c'
changes "$text" "$instruction" named linkwire

# where nobody can tell whether they fit, nothing is built: without a command, or without the script; its mode is no
# matter
read_rt=crates/nla_wire/src/nla_read.rt
nobody_tells=(tells 'scripts/make/sums.sh, which needs bash and sha256sum, does not say whether dist/ fits the crates: '
    make -s run)
for it in bash sha256sum; do
    script "$folder/bin/$it" "echo '$it: not found' >&2" 'exit 127'
    "${nobody_tells[@]}"
    changes "$read_rt" '$a// changed' "${nobody_tells[@]}"
    rm "$folder/bin/$it"
done
without scripts/make/sums.sh "${nobody_tells[@]}"
chmod -x scripts/make/sums.sh
changes "$read_rt" '$a// changed' tells "$read_rt changed since dist/ was made" make -s run
chmod +x scripts/make/sums.sh

# with its sum too, it is not the text that was made of the crates
forges() {
    changes dist/SUMS "s|.*  $text\$|$(sha256sum "$text")|" forged
}
forged() {
    scripts/make/sums.sh check >/dev/null
    fails_with "$text is not what is made of the crates" scripts/make/dist.sh --against "$top/out/texts" linkwire
    echo 'test_dist: an instruction changed, and its sum: ok'
}
if [ -e "$top/out/texts/$arch/linkwire.s" ]; then
    changes "$text" "$instruction" forges
else
    lacks 'an instruction changed, and its sum: no texts were made'
fi

# what is no source of a text changes nothing: proofs, a crate above
fits() {
    [ "$(echo 0 | make -s run 2>&1)" = nothex ]
    echo "test_dist: $1 changes no text: ok"
}
changes crates/nla_wire/specs/Frames.antt '$a-- changed' fits 'a specification'
changes crates/linkshow/src/main.rt '$a// changed' fits 'a crate above'

# with rt, what changed is proved where that is asked for, and nowhere else
script "$folder/rt/rt" 'mkdir -p out/rlib' 'name=$(basename "$PWD")' 'case $1 in' \
    'lib) touch out/rlib/stamp && echo "int linkwire_proved(void) { return 1; }" | cc -c -x c -o out/proved.o - &&' \
    '    ar rc "out/lib$name.a" out/proved.o ;;' \
    'run) printf "#!/bin/sh\necho proved\n" >"out/$name" && chmod +x "out/$name" ;;' 'esac'
ar rc "$folder/c/liblibc_c.a"
proves() {
    PATH=$folder/rt:$PATH
    for goal in run self-test all; do
        tells "$read_rt changed since dist/ was made. Put the file back. Without rt, build the last" make -s "$goal"
    done
    tells 'make PROVE=1 proves one build.' make -s run
    make -s run PROVE=1 2>"$folder/err" </dev/null | grep -qx proved
    echo 'test_dist: what changed is proved where PROVE=1 asks for it, and nowhere else: ok'
}
(changes "$read_rt" '$a// changed' proves)
[ "$(echo 0 | make -s run)" = nothex ]
# proved COUNT WORD..: in how many of the libraries, made with these words, stands what the stand-in made
proved() {
    local count
    runs make -s lib "${@:2}" </dev/null
    count=$({ nm out/liblinkwire.a; nm -D out/liblinkwire.so.0; } | grep -c ' T linkwire_proved$' || true)
    [ "$count" = "$1" ] || fails "$count libraries have what was proved, and not $1"
}
proved 0
PATH=$folder/rt:$PATH proved 2 PROVE=1
proved 0
echo 'test_dist: what was proved gives way to what dist/ has: ok'

# the caller's flags reach each call of the compiler, behind those that harden
script "$folder/bin/logs-cc" "echo \"\$*\" >>$folder/calls" 'exec cc "$@"'
make -s all CC=logs-cc CPPFLAGS=-DPASSED CFLAGS='-O1 -g' LDFLAGS=-Wl,-O1 >/dev/null
passes() {
    grep -E -- "$1" "$folder/calls" >"$folder/out"
    { [ "$(wc -l <"$folder/out")" = "$2" ] && ! grep -vE -- "$3" "$folder/out" >&2; } ||
        fails "calls of the compiler without $3"
}
passes ' (dist/heap|dist/errno|programs/linkdump)[.]c ?' 3 '-fstack-protector-strong .*-DPASSED .*-O1 -g '
passes ' -o out/link[a-z]* ' 5 '-Wl,-z,now .*-O1 -g -Wl,-O1 '
passes ' -o out/liblinkwire.so.0 ' 1 '-Wl,-O1 .*-Wl,-z,now '
rm -r out
echo "test_dist: the caller's flags are passed on: ok"

# bad input, and nothing is installed
installs=(make -s install "DESTDIR=$folder/stage")
script "$folder/bin/other-cc" 'echo riscv64-linux-gnu'
script "$folder/bin/mac-cc" 'echo arm64-apple-darwin23.1.0'
for it in CC LD; do
    tells "there is no no$it: install a C compiler and binutils, or set $it" "${installs[@]}" "$it=no$it"
done
tells 'dist/ has no text for riscv64, only for' "${installs[@]}" CC=other-cc
tells 'the texts in dist/ are for Linux, and mac-cc compiles for arm64-apple-darwin23.1.0: set CC to a compiler' \
    "${installs[@]}" CC=mac-cc
# the headers that a compiler finds: none, and those of the C library alone
tells 'cc -nostdinc finds no errno.h: install the headers of the C library' "${installs[@]}" CC='cc -nostdinc'
touch "$folder/headers/errno.h" "$folder/headers/stdio.h"
tells 'finds no linux/rtnetlink.h: install the headers of the kernel, or name their folder in CPPFLAGS' \
    "${installs[@]}" CC="cc -nostdinc -isystem $folder/headers"
tells 'PROVE=1 proves the crates by the command rt, which is not on the path: leave it out' "${installs[@]}" PROVE=1
for goal in dump out/linkdump; do
    tells 'there is no nocc: install a C compiler and binutils, or set CC' make -s "$goal" CC=nocc
done
for file in "$text" dist/heap.c man/linkwire.1 include/linkwire.h dist/linkwire.pc.in programs/*; do
    without "$file" tells "$file is missing" "${installs[@]}"
done
for file in include/linkwire.h programs/linkdump.h programs/linkdump_capture.c; do
    without "$file" tells "$file is missing" make -s dump
done
for goal in check dist edits; do
    tells "make $goal proves the crates by the command rt, which is not on the path: make self-test" make -s "$goal"
done
[ ! -e "$folder/stage" ] || fails 'something is installed'
echo 'test_dist passed'
