#!/usr/bin/env bash
# Tests the command linkwatch: linkwatch_tests.sh [FOLDER], where the shared library and the programs are, else out/.
. "$(dirname "$0")/../common.sh"
programs=$(realpath "${1:-out}")
export PYTHONPATH=$top/python LINKWIRE=$programs/liblinkwire.so.0 LINKDIFF=$programs/linkdiff PYTHONDONTWRITEBYTECODE=1

# tables VERSION PYTHON
tables() {
    local start=$SECONDS log=$folder/$1.log
    runs env PYTHONPATH="$PYTHONPATH:tests/linkwatch" "$2" -m unittest test_folding test_reading test_rates
    echo "linkwatch: Python $1: $(sed -n 's/^Ran \([0-9]* tests\).*/\1/p' "$log"): ok, $((SECONDS - start)) s"
}

each_python tables
strict linkwatch
for it in command terminal; do
    runs python3 "tests/linkwatch/test_$it.py"
    echo "linkwatch: $it: $(sed -n 's/^Ran \([0-9]* tests\).*/\1/p' "$log"): ok"
done
if has_namespace 'the running kernel' -mn; then
    mkdir "$folder/completions"
    unshare -mn tests/linkwatch/completions.sh "$folder/completions" "$programs"
    unshare -n python3 tests/linkwatch/live.py "$programs/linkdump" "$programs/linkdiff"
fi
echo 'linkwatch passed'
