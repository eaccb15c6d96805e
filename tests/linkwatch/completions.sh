#!/usr/bin/env bash
# Completes as bash and zsh do, in a namespace with links whose names a shell would run: completions.sh FOLDER PROGRAMS,
# where there is room for files, and where the programs are. Run as `unshare -mn`. The last line is 'completions
# passed'.
set -euo pipefail
top=$(cd "$(dirname "$0")/../.." && pwd)
cd "$1"
PATH=$2:$PATH

fails() {
    echo "completions: $*" >&2
    exit 1
}

mount -t sysfs sysfs /sys
odd=('x$(id>pwn)' 'x`id>pwn`' 'x;id>pwn' "x'y" 'x"y' 'x*' 'x\y' 'x&id' '-x' 'x${IFS}')
for it in "${odd[@]}"; do
    ip link add name "$it" type bridge
done
mkdir names
for it in "${odd[@]}"; do
    : >"names/$it"
done

# completes WORD..: what bash offers for the last one
compopt() { :; }
. "$top/completions/linkwire.bash"
completes() {
    COMP_WORDS=("$@") COMP_CWORD=$(($# - 1))
    _linkwire "$1"
}

# offers WANTED WORD..
offers() {
    completes "${@:2}"
    [ "${COMPREPLY[*]}" = "$1" ] || fails "${*:2}: ${COMPREPLY[*]} and not $1"
}

offers '--mask --monitor' linkdump --m
offers '--family' linkdump --fa
offers 'bridge' linkdump --family br
offers 'unspec,bridge' linkdump --family unspec,br
offers '--changes-only --counters' linkdiff --c
offers '--kernel' linkshow --k
offers 'running' linkshow --kernel r
offers '--lenient' linkstate --l
offers '--help' linkwire --h
offers 'clock utc none' linkwatch --time ''
offers 'never' linkwatch --color n
offers '--rates --read' linkwatch --r
offers 'names' linkwatch --diff na
offers 'names' linkwatch --diff a na
offers 'names' linkdiff na
offers 'lo' "$2/linkwatch" l
for it in "${odd[@]}"; do
    completes linkwatch "${it:0:2}"
    for word in "${COMPREPLY[@]}"; do
        # what is put on the command line is read by the shell as one word: the name
        eval "set -- $word"
        if [ "$#" != 1 ] || [ ! -e "/sys/class/net/$1" ]; then
            fails "bash: $word is no link"
        fi
    done
done
completes linkwatch x
[ "${#COMPREPLY[@]}" = 9 ] || fails "bash offers ${COMPREPLY[*]}"
_linkwire_names names x
[ ! -e pwn ] || fails 'bash ran a name'
echo "completions: bash: ${#odd[@]} odd names, and options: ok"

if ! command -v zsh >/dev/null; then
    echo 'completions: skipped: no zsh'
else
    cat >tries.zsh <<'END'
zmodload zsh/zpty
zpty z zsh -f -i
zpty -w z "PS1='> '; fpath=($1 \$fpath); autoload -Uz compinit; compinit -u -d $PWD/dump"
zpty -w z 'linkwatch() { print -rl -- "$@" >>words; }; sleep .2; linkwatch ready'
count=0
tells() { # whether another word is told, within five minutes
    for _ in {1..6000}; do
        [[ -e words && $(wc -l <words) -gt $count ]] && count=$(wc -l <words) && return
        sleep .05
    done
}
tells
for it in 'x\$\(' 'x\`' 'x\;' 'x\*' 'x\&' '--ti'; do
    zpty -w z 'linkwatch '$it$'\t'
    tells
done
zpty -d z
END
    for it in linkshow linkstate linkdiff linkdump linkwatch; do
        for word in $("$it" --help | grep -oE -e '--[a-z][a-z-]*' | sort -u); do
            grep -q -e "$word" "$top"/completions/_link* ||
                echo "completions: zsh: $it has $word, which is not completed"
        done
    done
    zsh -f tries.zsh "$top/completions" >/dev/null 2>&1 || true
    [ ! -e pwn ] || fails 'zsh ran a name'
    for it in 'x$(id>pwn)' 'x`id>pwn`' 'x;id>pwn' 'x*' 'x&id' --time; do
        grep -qxF -- "$it" words || fails "zsh does not complete $it: $(cat words)"
    done
    echo 'completions: zsh: odd names, and options: ok'
fi
echo 'completions passed'
