# Completion of lvl's command line for bash.
# The words of --ignore, after those before the last comma.
_lvl_words() {
    local given=
    [[ $1 == *,* ]] && given=${1%,*},
    COMPREPLY=($(compgen -P "$given" -W "properties texts names padding points all" -- "${1##*,}"))
}

_lvl() {
    local word=${COMP_WORDS[COMP_CWORD]} before=${COMP_WORDS[COMP_CWORD-1]}
    COMPREPLY=()
    if [ "$COMP_CWORD" -eq 1 ]; then
        COMPREPLY=($(compgen -W "compare show digest cells help --help --version" -- "$word"))
        return
    fi
    if [ "${COMP_WORDS[1]}" = help ]; then
        COMPREPLY=($(compgen -W "compare show digest cells" -- "$word"))
        return
    fi
    # bash parts a word at an equals sign
    if [ "$word" = = ]; then
        word=
    elif [ "$before" = = ]; then
        before=${COMP_WORDS[COMP_CWORD-2]}
    fi
    case $before in
    --top | --top-a | --top-b | --map | --window) return ;;
    --ignore) _lvl_words "$word"; return ;;
    esac
    case ${COMP_WORDS[1]}:$word in
    compare:-*) COMPREPLY=($(compgen -W "--top-a --top-b --map --window --ignore --large --unpack --why --units --progress --no-progress --help" -- "$word")) ;;
    show:-*) COMPREPLY=($(compgen -W "--top --ignore --large --unpack --progress --no-progress --help" -- "$word")) ;;
    digest:-*)
        COMPREPLY=($(compgen -W "--top --ignore --large --unpack --list --check --quiet --progress --no-progress --help" -- "$word")) ;;
    cells:-*) COMPREPLY=($(compgen -W "--ignore --large --unpack --progress --no-progress --help" -- "$word")) ;;
    *) local IFS=$'\n'; COMPREPLY=($(compgen -f -- "$word")) ;;
    esac
}
complete -o filenames -F _lvl lvl
