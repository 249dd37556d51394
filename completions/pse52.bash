# Completion for bash: pse52 and the commands beside it.
_pse52() {
    local word=${COMP_WORDS[COMP_CWORD]} command='' at
    for ((at = 1; at < COMP_CWORD; at++)); do
        case ${COMP_WORDS[at]} in -*) ;; *) command=${COMP_WORDS[at]}; break ;; esac
    done
    case $word in
        -*)
            local options='--explain --prove --released --which --version --help'
            [ "$command" != explain ] || options=--lines
            mapfile -t COMPREPLY < <(compgen -W "$options" -- "$word")
            return
            ;;
    esac
    case $command in
        '') mapfile -t COMPREPLY < <(compgen -W 'run show detail check audit rta upgrade gen soak explain' -- "$word") ;;
        explain | upgrade | audit) mapfile -t COMPREPLY < <(compgen -f -- "$word") ;;
        run | show | detail | rta | check) ((COMP_CWORD > at + 1)) && mapfile -t COMPREPLY < <(compgen -f -- "$word") ;;
    esac
}
_pse52_view() {
    local word=${COMP_WORDS[COMP_CWORD]}
    local options='--script --horizon --from --to --threads --title --tick --jobs --lists --width --version --help'
    if [[ $word == -* ]]; then
        mapfile -t COMPREPLY < <(compgen -W "$options" -- "$word")
    elif [ "$COMP_CWORD" -eq 1 ]; then
        mapfile -t COMPREPLY < <(compgen -W 'text svg html vcd perfetto ftrace trace.dat' -- "$word")
    else
        mapfile -t COMPREPLY < <(compgen -f -- "$word")
    fi
}
_pse52_measure() {
    local word=${COMP_WORDS[COMP_CWORD]}
    case $word in
        -*) mapfile -t COMPREPLY < <(compgen -W '--script --horizon --jobs --measures --csv --rta --version --help' -- "$word") ;;
        *) mapfile -t COMPREPLY < <(compgen -f -- "$word") ;;
    esac
}
_pse52_sweep() {
    local word=${COMP_WORDS[COMP_CWORD]}
    if [ "${COMP_WORDS[COMP_CWORD - 1]}" = --engine ]; then
        mapfile -t COMPREPLY < <(compgen -W 'parallel xargs' -- "$word")
        return
    fi
    case $word in
        -*) mapfile -t COMPREPLY < <(compgen -W '--jobs --sshlogin --output --by --columns --plot --over --program --engine --anew --version --help' -- "$word") ;;
        *) mapfile -t COMPREPLY < <(compgen -f -X '!*.toml' -- "$word"; compgen -d -- "$word") ;;
    esac
}
_pse52_live() {
    local word=${COMP_WORDS[COMP_CWORD]}
    case $word in
        -*) mapfile -t COMPREPLY < <(compgen -W '--core --tick --times --handlers --program --version --help' -- "$word") ;;
        *) mapfile -t COMPREPLY < <(compgen -f -- "$word") ;;
    esac
}
_pse52_lab() {
    local word=${COMP_WORDS[COMP_CWORD]}
    case $word in
        -*) mapfile -t COMPREPLY < <(compgen -W '--port --seconds --plain --open --version --help' -- "$word") ;;
        *) mapfile -t COMPREPLY < <(compgen -f -- "$word") ;;
    esac
}
_pse52_from_ftrace() {
    local word=${COMP_WORDS[COMP_CWORD]}
    case $word in
        -*) mapfile -t COMPREPLY < <(compgen -W '--trace --version --help' -- "$word") ;;
        *) mapfile -t COMPREPLY < <(compgen -f -- "$word") ;;
    esac
}
complete -o filenames -F _pse52 pse52
complete -o filenames -F _pse52_lab pse52-lab
complete -o filenames -F _pse52_live pse52-live
complete -o filenames -F _pse52_from_ftrace pse52-from-ftrace
complete -o filenames -F _pse52_view pse52-view
complete -o filenames -F _pse52_measure pse52-measure
complete -o filenames -F _pse52_sweep pse52-sweep
