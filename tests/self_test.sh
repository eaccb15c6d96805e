#!/bin/sh
# Looks at the sums, and runs what is built in out/: the programs' stored runs, and the programs of tests/c with the
# library: self_test.sh PROGRAM.. RUN is what runs a program of another processor, as qemu-aarch64; CC, CFLAGS and
# LDFLAGS compile; TESTS names some tests; LAWS is for how many seconds the laws are tried. The last line is 'self-test
# passed'.
set -eu
: "${RUN:=}" "${CC:=cc}" "${CFLAGS:=-O1}" "${LDFLAGS:=}" "${LAWS:=5}"
folder=$(mktemp -d)
trap 'rm -rf "$folder"' EXIT

fails() {
    echo "self-test: $*" >&2
    exit 1
}

# the sources of the texts, and the Makefile of the repository, are not in the archive of a release
sed '/^#/d; /  crates\//d; /  Makefile$/d' dist/SUMS | sha256sum --quiet -c - || fails 'a file is not that of dist/SUMS'

top=$PWD
# runs PROGRAM STORED: as the gate does, on the files stdin, args, a word a line, and data/ of a folder
runs() {
    program=$1 stored=$2 input=/dev/null
    set --
    if [ -e "$stored/args" ]; then
        while IFS= read -r word; do
            set -- "$@" "$word"
        done <"$stored/args"
    fi
    [ ! -e "$stored/stdin" ] || input=$stored/stdin
    [ ! -e "$stored/data" ] || cd "$stored/data"
    $RUN "$top/out/$program" "$@" <"$input"
}

for program in "$@"; do
    stored=$top/crates/$program
    [ -e "$stored" ] || stored=$top/tests/$program
    wanted=0 found=0
    [ ! -e "$stored/status" ] || read -r wanted <"$stored/status"
    (runs "$program" "$stored") >"$folder/stdout" || found=$?
    [ "$found" = "$wanted" ] || fails "$program ends with status $found"
    cmp "$folder/stdout" "$stored/stdout" || fails "$program answers otherwise than stored"
    echo "$program: the stored run: $(wc -l <"$folder/stdout") lines: ok"
done

# ends WANTED WHAT COMMAND..: a program with this status
ends() {
    wanted=$1 what=$2 found=0
    shift 2
    "$@" >"$folder/stdout" 2>"$folder/stderr" || found=$?
    [ "$found" = "$wanted" ] || fails "$*: $what: it ends with status $found"
}

for program in "$@"; do
    RUN=$RUN sh tests/program/said.sh "$program" >"$folder/said"
    awk -v it="\$ $program " '/^\$ / { on = index($0, it) == 1 } on' tests/program/said.txt | cmp "$folder/said" - ||
        fails "$program says something else than tests/program/said.txt has"
done

version=$(sed -n 's/^#define LINKWIRE_VERSION "\(.*\)"$/\1/p' include/linkwire.h)
for program in "$@"; do
    # shellcheck disable=SC2086
    {
        ends 1 'a read that fails' $RUN "out/$program" <"$folder"
        ends 0 'its version' $RUN "out/$program" --version </dev/null
        grep -qx "$program $version" "$folder/stdout" || fails "$program --version has another version"
        [ "$program" = linkwire ] || ends 2 'a word that it does not know' $RUN "out/$program" --unknown </dev/null
    }
    if [ -e /dev/full ]; then
        found=0
        # shellcheck disable=SC2086
        echo 00 | $RUN "out/$program" >/dev/full 2>/dev/null || found=$?
        [ "$found" = 1 ] || fails "$program: an output that is full: it ends with status $found"
    fi
done

# compiles TEST WORD..: CC and its flags may be several words each
compiles() {
    test=$1
    shift
    # shellcheck disable=SC2086
    $CC -std=gnu11 $CFLAGS -Iinclude -o "$folder/$test" "tests/c/$test.c" "$@" $LDFLAGS
}

for test in ${TESTS:-$(basename -s .c tests/c/*.c)}; do
    if [ "$test" = names ] && ! compiles names out/liblinkwire.a 2>"$folder/log"; then
        echo "names: skipped: the kernel's headers here lack what it compares: $(head -n 1 "$folder/log")"
        continue
    fi
    compiles "$test" out/liblinkwire.a
    if [ "$test" = laws ]; then
        $RUN "$folder/laws" --seconds "$LAWS"
    else
        $RUN "$folder/$test"
    fi
done
# The lines of tests/second, and what a second reader of the format answers to them, as it is stored
if [ -e tests/second ] && [ -z "${TESTS:-}" ]; then
    # shellcheck disable=SC2086
    $CC -std=gnu11 $CFLAGS -Iinclude -o "$folder/lines" tests/second/lines.c out/liblinkwire.a $LDFLAGS
    answers=$top/tests/second/stored.txt
    for set in all digits more mixed; do
        $RUN "$folder/lines" "$set" >"$folder/$set"
        for it in linkwire linkstate linkstate-lenient linkshow; do
            option=--lenient program=${it%-lenient}
            [ "$program" != "$it" ] || option=''
            [ -e "out/$program" ] || continue
            $RUN "out/$program" $option <"$folder/$set" | $RUN "$folder/lines" "$set" compare "$it" "$answers" ||
                fails "$it answers otherwise than the second reader"
        done
    done
    for set in all more mixed; do
        $RUN "$folder/lines" "$set" calls | $RUN "$folder/lines" "$set" compare calls "$answers" ||
            fails 'the library answers otherwise than the second reader'
    done

    # what no second reader says: whole objects of JSON, and changes
    # holds NAME SET PROGRAM WORD..: a program's answers, whole
    holds() {
        what=$1 set=$2
        shift 2
        [ -e "$1" ] || return 0
        # shellcheck disable=SC2086
        $RUN "$@" <"$folder/$set" | $RUN "$folder/lines" "$set" compare "$what" "$top/tests/second/held.txt" ||
            fails "$what: it answers otherwise than stored"
    }
    for set in news changes turns hosts worded; do
        $RUN "$folder/lines" "$set" >"$folder/$set"
    done
    for set in all more mixed; do
        holds linkshow-whole "$set" out/linkshow
        holds linkshow-whole-lenient "$set" out/linkshow --lenient --kernel 6.12.0
        holds held "$set" "$folder/lines" "$set" held
    done
    holds linkdiff news out/linkdiff
    holds linkdiff-counters news out/linkdiff --counters --lenient
    holds linkdiff-changes news out/linkdiff --changes-only
    holds linkdiff-more changes out/linkdiff
    holds linkdiff-more-counters changes out/linkdiff --counters --lenient
    holds linkshow-whole-worded worded out/linkshow
    holds linkshow-whole-worded-kernel worded out/linkshow --lenient --kernel 6.17
    holds linkdiff-worded worded out/linkdiff
    holds linkdiff-turns turns out/linkdiff
    holds linkdiff-turns-counters turns out/linkdiff --counters --lenient
    holds linkdiff-hosts hosts out/linkdiff
    holds linkdiff-hosts-counters hosts out/linkdiff --counters --lenient
    holds linkdiff-hosts-changes hosts out/linkdiff --changes-only
    head -n 6000 "$folder/hosts" >"$folder/first"
    holds linkdiff-files hosts out/linkdiff --lenient "$folder/first" - 2>"$folder/log"
    # words that no program has; and memory, reads and writes, where what is loaded before the C library sees them
    $RUN "$folder/lines" words >"$folder/words"
    watch=$folder/watch rows=''
    # shellcheck disable=SC2086
    $CC -std=gnu11 $CFLAGS -fPIC -shared -o "$watch" tests/second/watch.c $LDFLAGS -ldl 2>"$folder/log" || :
    for program in "$@"; do
        [ ! -e "$watch" ] || LD_PRELOAD=$watch WATCH_TOLD=$folder/told "out/$program" --version >"$folder/log" 2>&1 || :
        [ -e "$folder/told" ] || watch='' rows=alone
        RUN=$RUN sh tests/second/watched.sh "$program" "out/$program" "$folder" "$watch" >"$folder/rows"
        grep "^$program $rows" tests/second/watched.txt | diff "$folder/rows" - ||
            fails "$program does otherwise than tests/second/watched.txt has"
    done
    [ -n "$watch" ] || echo "memory, reads and writes: skipped: nothing can be loaded before the C library"
    # streams of hosts that come and go, in dumps that are whole or cut
    if [ -e out/linkdiff ]; then
        RUN=$RUN sh tests/second/streams.sh out/linkdiff | cmp - tests/second/told.txt ||
            fails 'linkdiff tells otherwise than stored of tests/second/streams.txt'
    fi
fi
if [ -e out/liblinkwire.so.0 ]; then
    compiles calls -Lout -llinkwire -Wl,-rpath,"$PWD/out"
    $RUN "$folder/calls"
fi
echo 'self-test passed'
