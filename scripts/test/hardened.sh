#!/usr/bin/env bash
# Looks whether what is built is hardened: hardened.sh FOLDER [LIBRARY]. The programs lie in FOLDER, and so does the
# shared library unless it is named. linkdump, which no proof covers, also has a stack protector and checked calls.
. "$(dirname "$0")/../common.sh"
read -ra programs <<<"$(sed -n 's/^PROGRAMS = //p' "$top/dist/Makefile")"

# wants FILE PATTERN WHAT: readelf has said this of the file
wants() {
    grep -qE "$2" "$folder/said" || fails "$1: $3"
}

for it in "${programs[@]/#/$1/}" "$1/linkdump" "${2:-$1/liblinkwire.so.0}"; do
    readelf --wide --headers --dynamic --syms "$it" >"$folder/said"
    wants "$it" '^ *Type: +DYN' 'it is loaded at one place'
    wants "$it" '^ *GNU_RELRO ' 'its tables are not read-only'
    wants "$it" '\(FLAGS_1\) .*\bNOW\b' 'its tables are not bound at its start'
    wants "$it" '^ *GNU_STACK .* RW +0x' 'its stack can be executed'
    ! grep -E '^ *LOAD .* RWE |\((TEXTREL|RPATH|RUNPATH)\)' "$folder/said" >&2 ||
        fails "$it: code can be written to, or comes from a folder of its own"
    case ${it##*/} in
    linkdump)
        wants "$it" ' UND __stack_chk_fail' 'no stack protector'
        wants "$it" ' UND __(v|sn|as|f)[a-z]*printf_chk' 'no checked calls'
        ;;
    liblinkwire.*)
        # what it calls does not change with the compiler's flags
        found=$(awk '$7 == "UND" && $5 == "GLOBAL" { sub(/@.*/, "", $8); print $8 }' "$folder/said" | sort -u | xargs)
        [ "$found" = 'free malloc memcpy memmove memset realloc' ] || fails "$it calls $found"
        ;;
    *) wants "$it" '\(FLAGS_1\) .*\bPIE\b' 'it is loaded at one place' ;;
    esac
done
echo 'hardened passed'
