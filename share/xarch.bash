# Completion of xarch for bash: source it, or install it as ~/.local/share/bash-completion/completions/xarch
_xarch() {
    local here=${COMP_WORDS[COMP_CWORD]}
    local commands="norm init add get history log versions check stats rekey cut join export import table tablekeys batch demo"
    COMPREPLY=()
    if [ "$COMP_CWORD" -eq 1 ]; then
        mapfile -t COMPREPLY < <(compgen -W "$commands" -- "$here")
        return
    fi
    # The words that are names of files.
    case ${COMP_WORDS[1]},$COMP_CWORD in
        norm,[23] | init,[23] | add,[23] | rekey,[23] | import,[23] | cut,[23] | join,[234] | table,[25] | tablekeys,4 | demo,4 | \
            get,2 | history,2 | log,2 | versions,2 | check,2 | stats,2 | export,2)
            compopt -o filenames 2>/dev/null
            mapfile -t COMPREPLY < <(compgen -f -- "$here")
            ;;
    esac
}
complete -F _xarch xarch
