#!/usr/bin/env bash
# Proves and builds the library for programs in C as one object, out/library.o, of which dist/Makefile makes the
# libraries.
. "$(dirname "$0")/../common.sh"
kit=$(dirname "$(dirname "$(readlink -f "$(command -v rt)")")")
mkdir -p "$top/out" "$top/crates/link_c/out"
read -ra flags <<<"$(flags_for x86_64)"
"$top/scripts/make/progress.sh" link_c "$top/out/link_c.log" rt lib "${flags[@]}"
cd "$top/out"
# what stands there is of another object
rm -f liblinkwire.a liblinkwire.so.0 liblinkwire.so
${LD:-ld} -r -z noexecstack -o library.o \
    --whole-archive ../crates/link_c/out/liblink_c.a --no-whole-archive "$kit/c/liblibc_c.a"
${OBJCOPY:-objcopy} --wildcard --keep-global-symbol='linkwire_*' library.o
