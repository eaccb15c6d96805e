#!/usr/bin/env bash
# That rust/ and dist/ fit the crates; the gate, and beside it, at a lower priority, the tests of what dist/ has; then
# that the texts in dist/ are what is made of the crates that were proved, and what else needs what the gate left. What
# they print comes one after the other. The last line is the gate's own, printed again.
set -euo pipefail
cd "$(dirname "$0")/.."
folder=$(mktemp -d)
trap 'kill $(jobs -p) 2>/dev/null || true; rm -rf "$folder"' EXIT
read -ra names <<<"$(sed -n 's/^PROGRAMS = //p' dist/Makefile)"
beside=() # the runs beside this one, by names of what they print into

# stage NAME COMMAND..: the command between two lines, of which the second has its seconds
stage() {
    local start=$SECONDS
    echo "check: $1 .."
    "${@:2}"
    echo "check: $1 .. $((SECONDS - start)) s" | tee -a "$folder/stages"
}

# begins RUN [PRIORITY]
begins() {
    { renice -n "${2:-0}" -p "$BASHPID" && "$1"; } >"$folder/$1" 2>&1 &
    beside+=("$1=$!")
}

gate() { rt ci | tee "$folder/gate"; }

assembled() {
    stage 'builds of dist/' scripts/test/dist_tests.sh
    stage costs.py python3 scripts/measure/costs.py
    stage test_costs.sh scripts/test/test_costs.sh
    stage test_second.sh scripts/test/test_second.sh out
    stage rust_tests.sh scripts/test/rust_tests.sh
    stage 'forty mutants of linkwire' python3 scripts/measure/mutants.py linkwire --count 40 --least 60
}

library() {
    stage 'c_tests.sh, with state_live.sh' scripts/test/c_tests.sh out/liblinkwire.a out
    stage call_answers.py python3 scripts/test/call_answers.py out/liblinkwire.a out/linkshow out/linkdiff
    stage second.sh scripts/test/second.sh out out/liblinkwire.a
    stage linkdump_tests.sh scripts/test/linkdump_tests.sh
    stage fuzz.sh scripts/test/fuzz.sh 30
    stage python_tests.sh scripts/test/python_tests.sh out
    stage linkwatch_tests.sh scripts/test/linkwatch_tests.sh out
    python3 scripts/test/readme.py out/liblinkwire.a out
}

programs() {
    for name in "${names[@]}"; do stage "program.sh $name" scripts/test/program.sh "$name"; done
    python3 scripts/test/state_tests.py out/linkstate
    stage diff_tests.py python3 scripts/test/diff_tests.py out/linkdiff out/linkshow
    stage sizes.py python3 scripts/test/sizes.py out
    python3 tests/linkdump/hosts.py --linkdiff out/linkdiff
    python3 tests/linkdiff/live.py out/linkdump out/linkdiff
    python3 tests/linkdiff/cases.py out/linkdiff
    python3 scripts/test/headline.py out/linkwire out/linkshow
    python3 scripts/test/linkdiff_page.py out/linkdiff
    stage damaged.py python3 scripts/test/damaged.py out
    python3 scripts/test/kernel_messages.py
    python3 scripts/test/kernel_truth.py out/linkshow
    python3 scripts/test/kernel_truth.py --live out/linkshow out/linkdump
    stage processors.sh scripts/test/processors.sh
    python3 scripts/test/kernel_tables.py
    for it in parallel_hosts test_progress tested_edits test_kernel_tables; do "scripts/test/$it.sh"; done
}

library_text() {
    stage 'the text of link_c' scripts/make/dist.sh --compare link_c
    stage 'link_c by another compiler' scripts/make/dist.sh --by-rattle link_c
    stage 'compilers.sh, of the library' scripts/test/compilers.sh --library
}

texts() {
    stage 'the texts of the programs' scripts/make/dist.sh --compare "${names[@]}"
    stage 'slips in dist/' scripts/test/test_dist.sh
    stage compilers.sh scripts/test/compilers.sh
    stage show_beside.py python3 scripts/test/show_beside.py crates/beside/out/beside out/linkshow
    for it in refused_memory refused_parse refused_info; do "scripts/test/$it.sh"; done
}

for it in release/version test/{lines,rows,named} erase/test_erase; do python3 "scripts/$it.py"; done
python3 scripts/test/edits.py --fit
python3 scripts/erase/erase.py check rust
scripts/make/sums.sh check
stage build make -s build lib
rm out/liblinkwire.so # it is a link, and rt ci takes none
for it in assembled library programs; do begins "$it" 5; done
stage gate gate
for it in library_text texts; do begins "$it"; done
status=0
for it in "${beside[@]}"; do
    wait "${it#*=}" || status=$?
    cat "$folder/${it%=*}"
done
[ "$status" = 0 ]
cat "$folder/stages"
tail -n 1 "$folder/gate"
