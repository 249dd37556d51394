# Sourced by bin/pse52: runs the program for somebody who looks on, and says on standard error what a status other than 0 means.

# Runs the program. What comes through a pipe is kept beside, so that its faults can be shown; not what `check` reads.
run_and_explain() {
    kept_script=
    writes_to_pipe=
    [ ! -p /dev/stdout ] || writes_to_pipe=yes
    case $1 in
        gen | soak) "$program" "$@"; status=$? ;;
        *)
            if [ -n "$input" ]; then
                kept_script=$input
                "$program" "$@" <"$input"
                status=$?
            elif [ -f /dev/stdin ]; then
                kept_script=/dev/stdin
                "$program" "$@"
                status=$?
            elif [ -e /dev/stdin ] && [ ! -d /dev/stdin ] && [ "$1" != check ] && folder=$(mktemp -d 2>/dev/null); then
                tell_terminal "$@"
                kept_script=$folder/script
                trap 'rm -rf "$folder"' EXIT
                for signal in HUP INT TERM; do
                    # shellcheck disable=SC2064
                    trap "rm -rf \"\$folder\"; trap - $signal; kill -$signal \$\$" "$signal"
                done
                tee "$kept_script" 2>/dev/null | "$program" "$@"
                status=$?
            else
                tell_terminal "$@"
                "$program" "$@"
                status=$?
            fi ;;
    esac
    explain_status "$@" >&2
}

# What is read where nothing was named, and it comes from a terminal.
tell_terminal() {
    [ -t 0 ] || return 0
    case $1 in
        check) read_here='a script, a line %% and a trace are' files='the files' names='SCRIPT TRACE' ;;
        audit) read_here='a head, a line %% and a trace are' files='the files' names='HEAD TRACE' ;;
        rta) read_here='the tasks are' files='a file' names=FILE ;;
        *) read_here='the script is' files='a file' names=FILE ;;
    esac
    say "$read_here read from this terminal, up to Ctrl-D at a line's beginning; or name $files: pse52 $* $names"
}

# The faults of the script, as tools/explain shows them. Of another text, or where that cannot, the line that is refused.
explain_refusal() {
    case $1 in
        rta) where='a line is: task NAME PRIORITY COST PERIOD BLOCKING (docs/RTA.md)' ;;
        audit) where='a line is: server NAME PERIOD BUDGET MAX (docs/AUDIT.md)' ;;
        *) where="'pse52 explain SCRIPT' tells its faults in words (docs/SCRIPT.md)" ;;
    esac
    if [ -z "$kept_script" ]; then
        say "the text is refused, in the line and for the fault that standard output names; $where"
        return
    fi
    case $1 in
        run | show | detail | upgrade)
            python3 "$top/tools/explain/main.py" "$kept_script" 2>/dev/null
            [ $? -ne 2 ] || return 0 ;;
    esac
    refusal=$("$program" "$@" <"$kept_script" 2>/dev/null | head -n 1)
    line=$(printf '%s\n' "$refusal" | cut -d ' ' -f 2)
    words=$(sed -n "${line}p" "$kept_script" | tr -cd ' -~' | cut -c 1-60)
    say "line $line is refused, $(printf '%s\n' "$refusal" | cut -d ' ' -f 4): '$words'; $where"
}

# Which line breaks which rule for which server, as tools/explain/breach.py tells it.
explain_breach() {
    breach=
    [ -z "$kept_script" ] || breach=$("$program" "$@" <"$kept_script" 2>/dev/null)
    # shellcheck disable=SC2086
    python3 "$top/tools/explain/breach.py" ${breach#breach } "$kept_script" 2>/dev/null ||
        say 'the trace breaks a rule of budgets: standard output has the line and the rule (docs/AUDIT.md)'
}

# One line for a status that is not 0.
explain_status() {
    case $status in
        0) ;;
        1) say "the program does not know these words: it is older than the commands of 'pse52 --help'" ;;
        2) explain_refusal "$@" ;;
        3)
            case $1 in
                upgrade) say 'the script, or the one of version 2 that it would be, has more than 1048576 bytes' ;;
                *) say 'the text has more bytes than the command reads: 1048576 of a script, 67108864 of tasks or with a trace' ;;
            esac ;;
        4) say 'the text could not be read' ;;
        5) [ -n "$writes_to_pipe" ] || say 'standard output could not be written' ;; # else its reader had enough
        6) say 'there was not enough memory; nothing was written' ;;
        7) say "the trace is not the script's: standard output has the first line that differs, what is due there, and what stands there" ;;
        8) say 'no line %% stands between the script and the trace' ;;
        9) explain_breach "$@" ;;
        *) say "the program ended with the status $status" ;;
    esac
}
