# shellcheck shell=bash
# Completion by bash for linkwire, linkshow, linkstate, linkdiff, linkdump and linkwatch. Options are those of --help.

# of these words, of which several may stand with commas between
_linkwire_list() {
    local cur=$1 head=
    shift
    [[ $cur == *,* ]] && head=${cur%,*}, cur=${cur##*,}
    mapfile -t COMPREPLY < <(compgen -P "$head" -W "$*" -- "$cur")
    compopt -o nospace
}

# of the names in a folder, quoted: `compgen -W` would run what stands in a name
_linkwire_names() {
    local it
    for it in "$1"/*; do
        it=${it##*/}
        [[ $it == '*' || $it != "$2"* ]] || COMPREPLY+=("$(printf %q "$it")")
    done
}

_linkwire_files() {
    compopt -o filenames
    mapfile -t COMPREPLY < <(compgen -f -- "$1")
}

_linkwire() {
    local program=${1##*/} cur=${COMP_WORDS[COMP_CWORD]} prev=${COMP_WORDS[COMP_CWORD - 1]} words=
    COMPREPLY=()
    case $prev in
        --family) _linkwire_list "$cur" unspec inet bridge inet6 packet mpls mctp; return ;;
        --mask)
            _linkwire_list "$cur" vf brvlan brvlan-compressed skip-stats mrp cfm-config cfm-status mst name-only
            return
            ;;
        --netns) _linkwire_names /run/netns "$cur"; return ;;
        --kernel) words=running ;;
        --time) words='clock utc none' ;;
        --color) words='auto always never' ;;
        --read | --diff) _linkwire_files "$cur"; return ;;
        --every | --for | --settle | --count | --host) return ;;
    esac
    if [[ -n $words ]]; then
        mapfile -t COMPREPLY < <(compgen -W "$words" -- "$cur")
        return
    fi
    if [[ $cur == -* ]]; then
        words=$("$1" --help 2>/dev/null | grep -oE -e '--[a-z][a-z-]*' | sort -u)
        mapfile -t COMPREPLY < <(compgen -W "$words" -- "$cur")
    elif [[ $program == linkdiff || $program == linkwatch && ${COMP_WORDS[COMP_CWORD - 2]} == --diff ]]; then
        _linkwire_files "$cur"
    elif [[ $program == linkwatch ]]; then
        _linkwire_names /sys/class/net "$cur"
    fi
}

complete -F _linkwire linkwire linkshow linkstate linkdiff linkdump linkwatch
