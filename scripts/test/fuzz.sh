#!/usr/bin/env bash
# Fuzzes the library's text and linkdump's reader of captures by AFL++, each for so many seconds: fuzz.sh SECONDS. What
# fails is left in out/fuzz, and its bytes are told.
. "$(dirname "$0")/../common.sh"
seconds=$1
needs afl-fuzz afl-gcc python3
[ "$(uname -m)" = x86_64 ] || skips "the library's text is instrumented on x86_64 alone"
export AFL_SKIP_CPUFREQ=1 AFL_I_DONT_CARE_ABOUT_MISSING_CRASHES=1 AFL_NO_UI=1 AFL_NO_AFFINITY=1 AFL_QUIET=1
export AFL_DONT_OPTIMIZE=1
compiler=(afl-gcc -std=gnu11 -D_GNU_SOURCE -O1 -Iinclude)
python3 tests/fuzz/seeds.py "$folder"

# fuzzes NAME WORD..: with the seeds of that name, until something fails or the time is over
fuzzes() {
    local name=$1 found runs edges
    rm -rf "out/fuzz/$name"
    mkdir -p "out/fuzz/$name"
    runs timeout -s INT "$((seconds + 120))" afl-fuzz -V "$seconds" -m none -t 2000+ -i "$folder/$name" \
        -o "out/fuzz/$name" -- "${@:2}"
    local stats=out/fuzz/$name/default/fuzzer_stats
    runs=$(sed -n 's/^execs_done *: //p' "$stats")
    edges=$(sed -n 's/^edges_found *: //p' "$stats")
    found=$(find "out/fuzz/$name/default/crashes" "out/fuzz/$name/default/hangs" -name 'id*' | head -n 1)
    if [ -n "$found" ]; then
        xxd -p "$found" | head -n 20 >&2
        fails "$name: $found fails"
    fi
    echo "fuzz: $name: $runs runs in $seconds s, $edges edges, nothing found"
}
# AFL's assembler leaves texts alone that do not stand where a compiler has its own
cp dist/x86_64/link_c.s "$folder"
TMPDIR=$folder runs "${compiler[@]}" -c -o "$folder/link_c.o" "$folder/link_c.s"
runs "${compiler[@]}" -o "$folder/library.out" tests/fuzz/library.c "$folder/link_c.o" dist/heap.c
fuzzes library "$folder/library.out"

read -ra pcap <<<"-DLINKDUMP_PCAP $(pkg-config --cflags --libs libpcap 2>/dev/null || echo -lpcap)"
if ! "${compiler[@]}" "${sanitizers[@]}" -o "$folder/linkdump.out" programs/linkdump*.c "${pcap[@]}" >"$log" 2>&1
then
    skips "captures: no libpcap, or no sanitizers: $(tail -n 1 "$log")"
fi
export ASAN_OPTIONS=abort_on_error=1:symbolize=0:detect_leaks=0 UBSAN_OPTIONS=abort_on_error=1:symbolize=0
fuzzes captures "$folder/linkdump.out" --read @@
