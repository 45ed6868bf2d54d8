# Completion of netflow and its tools for bash: source this file, or put it into bash-completion's folder.

# Names that a model declares by one of these words: _netflow_names WORDS FILE..
_netflow_names() {
    local words=$1 file
    shift
    for file; do
        [ -f "$file" ] && sed -nE "s/^[[:space:]]*($words)[[:space:]]+([A-Za-z_][A-Za-z0-9_]*).*/\2/p" "$file"
    done 2>/dev/null
}

# Files with these suffixes, and folders: _netflow_files SUFFIX..
_netflow_files() {
    local word=${COMP_WORDS[COMP_CWORD]} suffix
    for suffix; do
        COMPREPLY+=($(compgen -f -X "!*.$suffix" -- "$word"))
    done
    COMPREPLY+=($(compgen -d -- "$word"))
    [ ${#COMPREPLY[@]} -gt 0 ] || COMPREPLY=($(compgen -f -- "$word"))
}

# Options, values of options, or files: _netflow_rest OPTIONS SUFFIX..
_netflow_rest() {
    local word=${COMP_WORDS[COMP_CWORD]} last=${COMP_WORDS[COMP_CWORD-1]} options=$1
    shift
    case $last in
        --objective) COMPREPLY=($(compgen -W "$(_netflow_names 'minimize|maximize' "${COMP_WORDS[@]:1}")" -- "$word")); return ;;
        --only) COMPREPLY=($(compgen -W "$(_netflow_names arc "${COMP_WORDS[@]:1}")" -- "$word")); return ;;
        --set | --scale | --vary)
            COMPREPLY=($(compgen -S = -W "$(_netflow_names param "${COMP_WORDS[@]:1}")" -- "$word"))
            compopt -o nospace 2>/dev/null
            return ;;
    esac
    case $word in
        -*) COMPREPLY=($(compgen -W "$options --help" -- "$word")) ;;
        *) _netflow_files "$@" ;;
    esac
}

_netflow() {
    local word=${COMP_WORDS[COMP_CWORD]} suffix=mod
    COMPREPLY=()
    [ "$COMP_CWORD" -le 2 ] || suffix=dat
    if [ "$COMP_CWORD" -eq 1 ]; then
        COMPREPLY=($(compgen -W "solve compile min check help --help --version" -- "$word"))
        return
    fi
    case ${COMP_WORDS[1]} in
        help) COMPREPLY=($(compgen -W "solve compile min check" -- "$word")) ;;
        solve) _netflow_rest "--objective --lean --prices" $suffix ;;
        compile) _netflow_rest "--objective --lean" $suffix ;;
        *) _netflow_rest "" min sol ;;
    esac
}
complete -o filenames -F _netflow netflow

_netflow_companion() {
    local word=${COMP_WORDS[COMP_CWORD]} question="--objective --set --scale --bounds --ignore-outside --version" suffix=mod
    COMPREPLY=()
    [ "$COMP_CWORD" -le 1 ] || suffix=dat
    case ${COMP_WORDS[0]##*/} in
        netflow-plan) _netflow_rest "$question --used --all --json --convert" $suffix ;;
        netflow-why) _netflow_rest "$question --all --json" $suffix ;;
        netflow-report) _netflow_rest "$question --svg --json --unit" $suffix ;;
        netflow-convert) _netflow_rest "--output --force --version" $suffix ;;
        netflow-explain)
            [ "$COMP_CWORD" -gt 1 ] || COMPREPLY=($(compgen -W "solve compile min check --version" -- "$word"))
            [ ${#COMPREPLY[@]} -gt 0 ] && [ -n "$word" ] || _netflow_rest "$question --lean --prices --json" mod dat min sol ;;
        netflow-sheet)
            if [ "$COMP_CWORD" -eq 1 ]; then
                COMPREPLY=($(compgen -W "plan scenarios diff set list grid data --help --version" -- "$word"))
                return
            fi
            [ "$COMP_CWORD" -le 2 ] || suffix=dat
            case ${COMP_WORDS[1]} in
                plan) _netflow_rest "$question --only --grid --used --json --xlsx" $suffix ;;
                scenarios) _netflow_rest "$question --case --vary" $suffix ;;
                diff) _netflow_rest "$question --case --with" $suffix ;;
                set) _netflow_rest "--heading --columns" csv xlsx ;;
                list) _netflow_rest "--keys --set --columns --scale --comma" csv xlsx ;;
                grid) _netflow_rest "--turned --scale --comma" csv xlsx ;;
                data) _netflow_rest "" ini ;;
            esac ;;
    esac
}
complete -o filenames -F _netflow_companion netflow-plan netflow-why netflow-explain netflow-report netflow-sheet netflow-convert
