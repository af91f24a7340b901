# Completions of glm for bash, made by tools/shell_files from the program's help.
_glm() {
    local word="${COMP_WORDS[COMP_CWORD]}" before="${COMP_WORDS[COMP_CWORD - 1]}" words=""
    COMPREPLY=()
    [ "$before" != "=" ] || before="${COMP_WORDS[COMP_CWORD - 2]}"
    [ "$word" != "=" ] || word=""
    if [ "$COMP_CWORD" -eq 1 ]; then
        words="replay run check show explain timeline stats shell help -h --help -V --version"
    else
        case "${COMP_WORDS[1]} $before" in
            "replay --sessions") :; return ;;
            "replay -o" | "replay --output") compopt -o default 2> /dev/null; return ;;
            "run --sessions") :; return ;;
            "run -o" | "run --output") compopt -o default 2> /dev/null; return ;;
            "run --turns") :; return ;;
            "check --sessions") :; return ;;
            "check -o" | "check --output") compopt -o default 2> /dev/null; return ;;
            "show --sessions") :; return ;;
            "show -o" | "show --output") compopt -o default 2> /dev/null; return ;;
            "show --at") :; return ;;
            "explain --sessions") :; return ;;
            "explain -o" | "explain --output") compopt -o default 2> /dev/null; return ;;
            "explain --at") :; return ;;
            "timeline --sessions") :; return ;;
            "timeline -o" | "timeline --output") compopt -o default 2> /dev/null; return ;;
            "timeline --from") :; return ;;
            "timeline --to") :; return ;;
            "stats --sessions") :; return ;;
            "stats -o" | "stats --output") compopt -o default 2> /dev/null; return ;;
            "shell --sessions") :; return ;;
        esac
        case "${COMP_WORDS[1]}" in
            help) words="replay run check show explain timeline stats shell help" ;;
            replay) words="--sessions -o --output --comments --hints --stream -h --help" ;;
            run) words="--sessions -o --output --comments --hints --turns --stream -h --help" ;;
            check) words="--sessions -o --output --comments --hints --stream -h --help" ;;
            show) words="--sessions -o --output --comments --hints --at --csv --dot --waits --state -h --help" ;;
            explain) words="--sessions -o --output --comments --hints --at --csv --dot -h --help" ;;
            timeline) words="--sessions -o --output --comments --hints --from --to -h --help" ;;
            stats) words="--sessions -o --output --comments --hints --csv -h --help" ;;
            shell) words="--sessions -h --help" ;;
            *) return ;;
        esac
        if [[ "$word" != -* && "${COMP_WORDS[1]}" != @(help|shell) ]]; then
            compopt -o default 2> /dev/null
            return
        fi
    fi
    mapfile -t COMPREPLY < <(compgen -W "$words" -- "$word")
}
complete -F _glm glm
