#!/usr/bin/env bash
# Tests the package in python/: python_tests.sh [FOLDER], where the shared library and the programs are, else out/.
. "$(dirname "$0")/../common.sh"
programs=$(realpath "${1:-out}")
unset LINKWIRE PYTHONPATH CC
export PYTHONDONTWRITEBYTECODE=1 PIP_DISABLE_PIP_VERSION_CHECK=1 PIP_ROOT_USER_ACTION=ignore
export LINKDIFF=$programs/linkdiff

# offline COMMAND..: where there is no network, if that is allowed
offline() {
    ! unshare -rn true 2>/dev/null || set -- unshare -rn "$@"
    "$@"
}

# builds CC TAG: a wheel by this compiler has this tag
builds() {
    has "a wheel for $2" "$1" || return 0
    mkdir "$folder/$2"
    CC=$1 python3 python/backend.py "$folder/$2" >"$folder/name"
    grep -q -- "-py3-none-$2.whl\$" "$folder/name" || fails "by $1: $(cat "$folder/name")"
}

# makes FOLDER PYTHON: a fresh environment there; `pip` installs into it
makes() {
    # by the pip that this Python has, where it can install elsewhere: to unpack one takes longer than all the rest
    if "$2" -m pip --python "$2" --version >"$log" 2>&1 && "$2" -m venv --without-pip "$1"; then
        pip=("$2" -m pip --python "$1/bin/python")
    elif "$2" -m venv "$1" >"$log" 2>&1; then
        pip=("$1/bin/pip")
    else
        return 1
    fi
}

# environment VERSION PYTHON: installs, and runs the tests
environment() {
    local env=$folder/$1 start=$SECONDS pip log=$folder/$1.log
    makes "$env" "$2" || { lacks "Python $1: no venv" && return; }
    runs offline "${pip[@]}" install --no-index ./python
    runs env -u LINKWIRE "$env/bin/linkwatch" --version
    runs env -u LINKWIRE PYTHONPATH=tests/python "$env/bin/python" -m unittest discover -v -s tests/python
    sed -n "s/.*\.\.\. skipped ['\"]\(.*\)['\"]\$/python: $1: skipped: \1/p" "$log" | sort | uniq -c |
        sed 's/^ *\([0-9]*\) \(.*\)/\2 (\1 tests)/'
    echo "python: $1: pip install ./python, $(sed -n 's/^Ran \([0-9]* tests\).*/\1/p' "$log"): ok," \
        "$((SECONDS - start)) s"
}

# ours COMMAND..: with the package on the path of Debian's python3, where that is here, and the library that was built
ours() {
    PATH=$folder/bin:$programs:$PATH PYTHONPATH=$top/python LINKWIRE=$programs/liblinkwire.so.0 "$@"
}

mkdir "$folder/bin"
system=/usr/bin/python3
[ -x "$system" ] || system=$(command -v python3)
ln -s "$system" "$folder/bin/python3"
strict linkwire

# the bytes are the same twice, and what lacks is said
mkdir "$folder/one" "$folder/two" "$folder/none" "$folder/tools"
for it in one two; do
    (cd / && python3 "$top/python/backend.py" "$folder/$it") >/dev/null
    sleep 1.1 # a time would differ
done
cmp "$folder"/one/*.whl "$folder"/two/*.whl
ln -s "$(python3 -c 'import sys; print(sys.executable)')" "$folder/tools/python3"
fails_with 'linkwire: there is no cc, and no installed liblinkwire.so.0: install' \
    env PATH="$folder/tools" LINKWIRE=/nothing python3 python/backend.py "$folder/none"
PATH=$folder/tools LINKWIRE=$programs/liblinkwire.so.0 python3 python/backend.py "$folder/none" >"$folder/name"
grep -q -- '-any.whl$' "$folder/name" || fails "without a compiler: $(cat "$folder/name")"
fails_with '' env CC="$folder/tools/python3" python3 python/backend.py "$folder/none"
fails_with 'ImportError: linkwire: LINKWIRE names a library that does not load: /nothing: cannot open' \
    env LINKWIRE=/nothing PYTHONPATH=python python3 -c 'import linkwire'
if PYTHONPATH=python python3 -c 'import linkwire' 2>/dev/null; then
    lacks 'what is said without a library: one is installed'
else
    fails_with 'ImportError: linkwire: no shared library: install liblinkwire.so.0' \
        env PYTHONPATH=python python3 -c 'import linkwire'
fi
echo 'python: the wheel: the same bytes twice; without a compiler or a library what lacks is said'

builds cc "linux_$(uname -m)"
grep -q 'linkwire-.*/LICENSE' <(python3 -m zipfile -l "$folder/linux_$(uname -m)"/*.whl) || fails 'no LICENSE'
builds aarch64-linux-gnu-gcc linux_aarch64
builds musl-gcc "musllinux_1_1_$(uname -m)"
for it in riscv64 arm s390x i686; do
    script "$folder/other-cc" "echo $it-linux-gnu"
    fails_with "linkwire: processors of $it-linux-gnu are not supported, only aarch64 and x86_64. linkdump is C" \
        env CC="$folder/other-cc" python3 python/backend.py "$folder"
done
mkdir "$folder/odd"
cp -r python/linkwire "$folder/odd"
it=$folder/odd/linkwire/liblinkwire.so.0
echo nothing >"$it"
[ ! -e "$folder/linux_aarch64" ] || python3 -m zipfile -e "$folder"/linux_aarch64/*.whl "$folder/odd"
[ "$(uname -m)" != aarch64 ] || echo nothing >"$it"
fails_with "ImportError: linkwire: the shared library is there and does not load: $it" \
    env PYTHONPATH="$folder/odd" python3 -c 'import linkwire'
echo 'python: the tag of a wheel is of its compiler, and what does not fit is said'

# a wheel of an archive of sources is the one of the repository; an installation follows the sources
mkdir "$folder/sources" "$folder/of-sources" "$folder/tree"
python3 python/backend.py --sdist "$folder/sources" >/dev/null
tar -xzf "$folder"/sources/*.tar.gz -C "$folder/sources"
(cd / && python3 "$folder"/sources/linkwire-*/backend.py "$folder/of-sources") >/dev/null
cmp "$folder"/one/*.whl "$folder"/of-sources/*.whl
cp -r python dist LICENSE "$folder/tree"
if makes "$folder/editable" python3; then
    runs offline "${pip[@]}" install --no-index -e "$folder/tree/python"
    echo 'added = 1' >>"$folder/tree/python/linkwire/numbers.py"
    (cd / && "$folder/editable/bin/python" -c 'import linkwire as it; it.check(bytes(16)); print(it.numbers.added)') |
        grep -qx 1 || fails 'an installation does not follow the sources'
    echo 'python: the archive of sources builds the same wheel, and pip install -e follows the sources'
else
    lacks 'an installation that follows the sources: no venv'
fi

each_python environment
if [ -e python/build ] || [ -e python/linkwire.egg-info ]; then
    fails 'the build leaves something in the tree'
fi
if has_namespace 'the running kernel' -n; then
    ours unshare -n python3 tests/python/live.py
    ours unshare -n python3 tests/python/beside.py made
    ours python3 tests/python/pages.py README.md docs/PYTHON.md docs/FLEET.md
fi
ours nice -n 3 python3 tests/python/rules.py "$LINKDIFF"
ours python3 tests/python/beside.py
ours python3 tests/python/fleet.py
echo 'python passed'
