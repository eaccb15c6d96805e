#!/usr/bin/env bash
# Makes dist/ anew of what is proved, proving what is not: the texts and their sums.
#     dist.sh --compare NAME..    makes the texts of these in out/texts, over what the gate left, and compares
#     dist.sh --against FOLDER NAME   compares with the one that was made
#     dist.sh --by-rattle NAME    has the toolchain's own compiler make a library
. "$(dirname "$0")/../common.sh"
read -ra names <<<"link_c $(sed -n 's/^PROGRAMS = //p' dist/Makefile)"
mapfile -t archs < <(awk '!/^#/ { print $1 }' scripts/make/targets.txt)

# verdicts NAME: what the toolchain said of the crate at last, for each processor
verdicts() {
    [ "$(grep -c '^logic=proved .* target=' "$log")" = "${#archs[@]}" ] || fails "$1 is not proved"
    sed -n "/^logic=proved .* target=/s/^/dist: $1: /p" "$log"
}

# compares FOLDER NAME
compares() {
    local arch
    for arch in "${archs[@]}"; do
        cmp "dist/$arch/$2.s" "$1/$arch/$2.s" >&2 ||
            fails "dist/$arch/$2.s is not what is made of the crates: make dist makes it anew"
    done
    echo "dist: $2: the texts are what is made of the crates"
}

# instructions FILE: those of an object file or archive, without their targets and what fills the space between
instructions() {
    objdump -d --no-show-raw-insn "$1" | awk -F '\t' '/^ *[0-9a-f]+:/ { print $2 }' |
        sed 's/<[^>]*>//g; s/^\(j[a-z]*\|call\) .*/\1/; s/ *#.*//' | grep -v 'nop\|xchg   %ax,%ax'
}

# is_built NAME: the text for x86-64 has the instructions of what the toolchain built
is_built() {
    local built=crates/$1/out/lib$1.a
    [ -e "$built" ] || built=crates/$1/out/$1.o
    [ "$(uname -m)" = x86_64 ] || { lacks "$1: the instructions: this is no x86_64" && return; }
    ${CC:-cc} -c -o "$folder/text.o" "dist/x86_64/$1.s"
    instructions "$built" >"$folder/built"
    instructions "$folder/text.o" | cmp - "$folder/built" >&2
    echo "dist: $1: $(wc -l <"$folder/built") instructions, those of the object file that the toolchain made"
}

# texts NAME TO: text.py in the crate's folder, in one process, as the gate's other scripts run beside it
texts() {
    runs env -C "crates/$1" python3 "$top/scripts/make/text.py" "$2" 1
}

case ${1:-} in
--compare)
    for name in "${@:2}"; do
        texts "$name" "$top/out/texts"
        verdicts "$name"
        compares out/texts "$name"
        is_built "$name"
    done
    exit
    ;;
--by-rattle)
    texts "$2" --by-rattle
    sed -n "s/^logic=proved .* target=/dist: $2 by the toolchain's compiler: &/p" "$log"
    exit
    ;;
--against)
    compares "$2" "$3"
    exit
    ;;
esac

# a program that is new has no text yet, and sums want one
for arch in "${archs[@]}"; do
    mkdir -p "dist/$arch"
    printf "dist/$arch/%s.s\n" "${names[@]}" | xargs touch -a
done
# what changes meanwhile is seen by the sums: they are taken before and after
scripts/make/sums.sh make | grep '  crates/' >"$folder/before"
for name in "${names[@]}"; do
    scripts/make/progress.sh "$name" "$folder/log" python3 "$top/scripts/make/text.py" "$folder"
    verdicts "$name"
done
for arch in "${archs[@]}"; do
    rm -f "dist/$arch"/*.s
    mv "$folder/$arch"/*.s "dist/$arch/"
done
scripts/make/sums.sh make >"$folder/sums"
grep '  crates/' "$folder/sums" | cmp -s - "$folder/before" ||
    fails 'a source changed while the texts were made: run this again'
mv "$folder/sums" dist/SUMS
scripts/make/sums.sh check
