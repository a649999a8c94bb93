# Completion of bash for glass and its tools: commands, options, and the names of files.

_glass() {
    local word=$2 before=$3 words=''
    COMPREPLY=()
    if [ "$COMP_CWORD" -eq 1 ]; then
        words='age average check cross demo lines measure plain potts run'
    elif [ "${COMP_WORDS[1]}" = run ]; then
        case $before in
            --from | --save | --workers | --pieces | --until | --stop-after) ;;
            *) case $word in -*) words='--from --pieces --save --stop-after --until --workers' ;; esac ;;
        esac
    elif [ "${COMP_WORDS[1]}" = measure ]; then
        case $before in
            --from | --save | --workers | --pieces | --until) ;;
            *) case $word in -*) words='--from --pieces --save --until --workers' ;; esac ;;
        esac
    elif [ "${COMP_WORDS[1]}" = potts ]; then
        case $COMP_CWORD in
            6) words='plus random' ;;
            7) words='random zero' ;;
        esac
    fi
    [ -z "$words" ] || mapfile -t COMPREPLY < <(compgen -W "$words" -- "$word")
}

# A tool tells its options itself.
_glass_tool() {
    COMPREPLY=()
    case $2 in
        -*) mapfile -t COMPREPLY < <(compgen -W "$("$1" --help 2>/dev/null | grep -oE -- '--[a-z]+(-[a-z]+)*' | sort -u)" -- "$2") ;;
    esac
}

complete -o default -F _glass glass
for tool in $(compgen -c glass- | sort -u); do
    complete -o default -F _glass_tool "$tool"
done
unset tool
