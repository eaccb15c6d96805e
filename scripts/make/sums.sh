#!/usr/bin/env bash
# dist/SUMS: the sum of each text, source of these and file written by hand, the lines of crates.txt, the toolchain:
#     sums.sh make            prints it, for all as it is
#     sums.sh written         prints it with new sums of the files written by hand, and the others as they stand there
#     sums.sh unfit ARCH NAME..   prints the names of those texts that do not fit the tree
#     sums.sh why ARCH NAME.. -- FILE..   prints in a line what changed first of these texts, or of these files written
#                             by hand, and what to do; nothing where all fit
#     sums.sh check           compares all; where rt is on the path and is not the toolchain that made them, it says so
self=dist
. "$(dirname "$0")/../common.sh"
shopt -s inherit_errexit nullglob globstar
export LC_ALL=C
sums=dist/SUMS
read -ra names <<<"link_c $(sed -n 's/^PROGRAMS = //p' dist/Makefile)"
mapfile -t archs < <(awk '!/^#/ { print $1 }' scripts/make/targets.txt)
by_hand=(Makefile completions/* dist/*.c dist/*.in dist/*.map dist/Makefile include/*.h programs/*)

# sources CRATE..: their sums
sources() {
    local it files=()
    for it in "$@"; do
        files+=("crates/$it/src"/**/*.rt)
    done
    sha256sum "${files[@]}" </dev/null
}

# unfit ARCH NAME..: of each text that does not fit a line, its name and what changed. Each file is read once.
unfit() {
    local it all was now
    for it in "$sums" crates.txt; do
        [ -e "$it" ] || { printf "%s $it is missing\n" "${@:2}" && return; }
    done
    was=$(sed 's/^# crates.txt //' "$sums")
    mapfile -t all < <(sed -n 's/^# crates.txt \([a-z0-9_]*\).*/\1/p' "$sums")
    now=$(
        cat crates.txt
        sources "${all[@]}"
        printf "dist/$1/%s.s\n" "${@:2}" | xargs sha256sum 2>/dev/null || true
    )
    for it in "${@:2}"; do
        changed "$it" "dist/$1/$it.s" | sed "s/^/$it /"
    done
}

# changed NAME TEXT: what is not `now` as it `was`: first the lines of its crates, then their sources, and the text
changed() {
    local below
    grep -q "  $2$" <<<"$now" || { echo "$2 is missing"; return; }
    grep -q "^$1[: ]" <<<"$was" || { echo "$sums has no line of $1"; return; }
    below=$(crates_below "$1" | paste -sd '|')
    grep -E "^(${below:-$1})[: ]|  crates/($below)/src/|  $2$" <<<"$now"$'\n'"$was" | sort | uniq -u |
        sed "s|.*  \(crates/.*\)|2 \1 changed since dist/ was made|; s|.*  dist/.*|3 $2 is not the text of $sums|; t
            s|\([a-z0-9_]*\).*|1 the line of \1 in crates.txt changed since dist/ was made|" | sort | sed -n '1s/..//p'
}

# why ARCH NAME.. -- FILE..
why() {
    local it what names files words="$*" fix=': make sums writes its sum anew, or put the file back'
    read -ra names <<<"${words%% -- *}"
    read -ra files <<<"${words#* -- }"
    what=$([ "${#names[@]}" -lt 2 ] || unfit "${names[@]}" | sed -n '1s/^[^ ]* //p')
    if [ -n "$what" ]; then
        echo "$what. Put the file back. Without rt, build the last commit that changed dist/$1:" \
            "git checkout \$(git log -1 --format=%h dist/$1); with rt, make dist makes dist/ anew, and make PROVE=1" \
            "proves one build"
        return
    fi
    for it in "${files[@]}"; do
        [ -e "$it" ] || { echo "$it is missing$fix" && return; }
    done
    sha256sum "${files[@]}" | grep -vxFf "$sums" | sed -n "1s|^[^ ]* *\(.*\)|\1 is not the file of $sums$fix|p" || true
}

case $1 in
make)
    mapfile -t all < <(for it in "${names[@]}"; do crates_below "$it"; done | sort -u)
    echo "# What dist/ and a build are made of: sha256sum -c dist/SUMS compares the files, scripts/make/sums.sh all."
    echo "# toolchain $(rt version)"
    for crate in "${all[@]}"; do
        sed -n "s/^${crate}[: ]/# crates.txt &/p" crates.txt
    done
    sources "${all[@]}" | sort -k 2
    for arch in "${archs[@]}"; do
        printf "dist/$arch/%s.s\n" "${names[@]}" | xargs sha256sum
    done
    sha256sum "${by_hand[@]}"
    ;;
# the texts and their sources stay as they were
written) grep -E '^#|  crates/|  dist/.*\.s$' "$sums" && sha256sum "${by_hand[@]}" ;;
unfit) unfit "${@:2}" | cut -d ' ' -f 1 ;;
why) why "${@:2}" ;;
check)
    mapfile -t files < <(grep -vE '^#|  crates/|\.s$' "$sums" | sed 's/^[^ ]* *//')
    for arch in "${archs[@]}"; do
        what=$(why "$arch" "${names[@]}" -- "${by_hand[@]}" "${files[@]}")
        [ -z "$what" ] || fails "$what"
    done
    by=$(sed -n 's/^# toolchain //p' "$sums")
    if command -v rt >/dev/null && [ "$(rt version)" != "$by" ]; then
        echo "dist: made by $by, and rt is $(rt version): make check makes the texts anew and compares them" >&2
    fi
    echo "dist: the sums fit"
    ;;
*) fails "no $1" ;;
esac
