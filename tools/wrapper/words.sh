# Sourced by bin/pse52: what it answers to words that are no command of the program as they stand. Standard output gets help and the
# version where they are asked for; all else goes to standard error, with status 1.

help_text() {
    cat <<'END'
usage: pse52 COMMAND NUMBERS [FILE]

pse52 simulates the scheduling of a small realtime kernel (IEEE 1003.1-2017, as PSE52 of IEEE 1003.13), and is proved to do so.
Without FILE it reads standard input. Times are in ticks.

  run N [SCRIPT]          runs a script to tick N, and writes its trace
  show N [SCRIPT]         tells who runs, waits and owns what at tick N of the script's run
  detail N [SCRIPT]       writes the trace, and behind the lines of each instant what changed of all that
  check N [SCRIPT TRACE]  tells whether a trace is that of the script (standard input: SCRIPT, a line %%, TRACE)
  audit [HEAD TRACE]      tells whether the sporadic servers of any trace kept their budgets (HEAD, a line %%, TRACE)
  rta N [TASKS]           tells the least response times of periodic tasks, up to N ticks
  upgrade [SCRIPT]        writes the script as one of version 2
  gen S                   writes the script that is made of the number S
  soak S N                runs the script of the number S to tick N, and writes its closing lines
  explain [SCRIPT]        tells every fault of a script: its line and word, and how to fix it (--lines SCRIPT: for editors)

  --explain               with a command: where the script is refused, its faults on standard error (always so on a terminal)
  --prove                 proves and builds the program of the sources that stand here
  --released              runs the program in release/, whatever sources stand here
  --which                 prints the path of the proved program
  --version, --help

pse52-view draws a trace, pse52-sweep runs a script with many values; bin/ has what else there is. Language: docs/SCRIPT.md.
END
}

# The version, and what the release is.
version_text() {
    printf 'pse52 %s\n' "$(cat "$top/VERSION" 2>/dev/null)" || return
    [ ! -e "$top/release/MANIFEST" ] || awk '
        { word = $1; sub(/^[^ ]* /, ""); value[word] = $0 }
        END { print "release " value["version"] " of " value["date"] ", for " value["machine"] ", proved with " value["toolchain"] }
    ' "$top/release/MANIFEST"
}

refuse() {
    say "$*"
    exit 1
}

# What the number of a command is.
meaning_of() {
    case $1 in
        run | show | detail | check) echo 'a number of ticks from 0 to 10^18' ;;
        rta) echo 'a number of ticks from 0 to 100000000' ;;
        *) echo 'a number from 0 to 10^18' ;;
    esac
}

# What is wrong with a word at the place of a number: the command, the word, and what stands behind it.
refuse_number() {
    wrong="$1: '$2' is not $(meaning_of "$1")"
    if [ -f "$2" ] && [ "$1" != check ] && [ "$1" != gen ] && [ "$1" != soak ]; then
        case ${3-} in '' | *[!0-9]*) number=100 ;; *) number=$3 ;; esac
        refuse "$wrong; the number comes first, and then the file: pse52 $1 $number $2"
    fi
    case $2 in
        -[0-9]*) refuse "$wrong; no number is negative" ;;
        [0-9]*[eE]*[0-9] | [0-9]*[kMG] | [0-9]*_* | [0-9]*,*) refuse "$wrong; write all its digits, as in 1000" ;;
        [0-9]*.[0-9]* | .[0-9]*) refuse "$wrong; ticks are whole numbers" ;;
        [0-9]*[a-z]) refuse "$wrong; write digits without a unit, since all times are in ticks" ;;
        *) refuse "$wrong; $(usage_of "$1")" ;;
    esac
}

# Whether the words are a command's numbers and a file behind them; sets `input`.
takes_file() {
    command=$1
    if [ "$#" -eq 3 ]; then
        is_command "$command" "$2" || refuse_number "$@"
        shift
    fi
    [ "$2" != - ] || return 0
    case $2 in
        *.task | *.rta | */*) ;;
        *) [ -e "$2" ] || return 1 ;;
    esac
    open_input "$2"
}

# Takes a file as the input, where it can be read.
open_input() {
    [ ! -d "$1" ] || { say "'$1' is a folder, and no text"; exit 4; }
    if [ ! -e "$1" ]; then
        case $1 in --*) refuse "'$1' is no option and no file; 'pse52 --help' lists the options" ;; esac
        say "there is no file '$1'"
        exit 4
    fi
    [ -r "$1" ] || { say "the file '$1' may not be read"; exit 4; }
    input=$1
}

# The text of a file, or standard input for `-`.
text_of() {
    if [ "$1" = - ]; then cat; else cat <"$1"; fi
}

# A script and a trace as one input, with the line between them: the command with its numbers, the script, the trace. Where the two differ,
# or the trace breaks a rule, and somebody looks on, the line of the trace is shown; where the script is refused, the line of the script.
divided() {
    [ "$2 $3" != '- -' ] || refuse "only one of the two files may be '-', which is standard input"
    [ "$2" = - ] || open_input "$2"
    [ "$3" = - ] || open_input "$3"
    case "$2 $3" in
        '- '* | *' -') [ ! -t 0 ] || say "'-' is read from this terminal, up to Ctrl-D at a line's beginning" ;;
    esac
    input=
    # A script whose last line has no end gets one, so that the line %% is a line of its own.
    # shellcheck disable=SC1003,SC2086
    told=$({ text_of "$2" | sed -e '$a\'; echo '%%'; text_of "$3"; } | sh "$top/bin/pse52" ${asked:+--$asked} ${explains:+--explain} $1)
    status=$?
    [ -z "$told" ] || written printf '%s\n' "$told"
    number=${told#* }
    number=${number%%[!0-9]*}
    case $status in 2) file=$2 ;; 7 | 9) file=$3 ;; *) number= file= ;; esac
    if [ -n "$number" ] && [ -f "$file" ] && { [ -n "$explains" ] || [ -t 2 ]; }; then
        say "line $number of $file: $(shown_line "$number" "$file")"
    fi
    exit "$status"
}

# Line $1 of the file $2, and what of it the eye does not see.
shown_line() {
    LC_ALL=C awk -v number="$1" -v unended="$(tail -c 1 <"$2" | tr -d '\n')" 'NR == number { line = $0 }
    END {
        if (NR < number) { print "the file ends before it"; exit }
        note = NR == number && unended != "" ? " (its line end is missing)" : line ~ /[ \t]$/ ? " (a blank stands at its end)" : ""
        if (sub(/\r$/, "", line)) note = " (it ends with byte 13, as lines of Windows do)"
        gsub(/[^ -~]/, "?", line)
        print line note
    }' <"$2"
}

# The command that a misspelt word was to be, if one is near: the same letters but one, or two that changed places.
near() {
    awk -v have="$1" 'BEGIN {
        count = split("run show detail check audit rta upgrade gen soak explain help version", names, " ")
        for (i = 1; i <= count; i++) {
            name = names[i]
            if (distance(tolower(have), name) <= 1 + (length(name) > 4)) { print name; exit }
        }
    }
    function distance(a, b,    i, j, row, before, cost) {
        for (j = 0; j <= length(b); j++) row[0, j] = j
        for (i = 1; i <= length(a); i++) {
            row[i, 0] = i
            for (j = 1; j <= length(b); j++) {
                cost = substr(a, i, 1) != substr(b, j, 1)
                row[i, j] = least(row[i - 1, j] + 1, least(row[i, j - 1] + 1, row[i - 1, j - 1] + cost))
                if (i > 1 && j > 1 && substr(a, i - 1, 2) == substr(b, j, 1) substr(b, j - 1, 1))
                    row[i, j] = least(row[i, j], row[i - 2, j - 2] + 1)
            }
        }
        return row[length(a), length(b)]
    }
    function least(a, b) { return a < b ? a : b }'
}

# Answers words that are no command of the program, and ends.
answer_words() {
    case ${1-} in
        '') [ "$#" -eq 0 ] || refuse "an empty word is no command; 'pse52 --help' lists the commands"
            help_text >&2
            exit 1 ;;
        -h | --help | help) written help_text; exit 0 ;;
        -V | --version | version) written version_text; exit 0 ;;
        explain) shift; explain_command "$@" ;;
        run | show | detail | check | rta | gen | soak) refuse_operands "$@" ;;
        upgrade | audit)
            [ "$1 $#" != 'audit 3' ] || divided audit "$2" "$3"
            refuse_files "$@" ;;
        -*) refuse "'$1' is no option; 'pse52 --help' lists the options" ;;
        [0-9]*) refuse "a command comes before its numbers, as in: pse52 run $1 SCRIPT" ;;
        view | measure | sweep | live | lab | from-ftrace) refuse "'$1' is a command of its own: pse52-$1" ;;
        *.task | *.rta) refuse "a command and its number come before the file: pse52 run 100 $1" ;;
        *)
            meant=$(near "$1")
            [ -z "$meant" ] || refuse "'$1' is no command; did you mean '$meant'? 'pse52 --help' lists the commands"
            refuse "'$1' is no command; 'pse52 --help' lists the commands" ;;
    esac
}

usage_of() {
    case $1 in
        run) echo 'write: pse52 run N SCRIPT, or pse52 run N < SCRIPT' ;;
        show) echo 'write: pse52 show N SCRIPT, or pse52 show N < SCRIPT' ;;
        detail) echo 'write: pse52 detail N SCRIPT, or pse52 detail N < SCRIPT' ;;
        check) echo 'write: pse52 check N SCRIPT TRACE' ;;
        rta) echo 'write: pse52 rta N TASKS, or pse52 rta N < TASKS' ;;
        gen) echo 'write: pse52 gen S' ;;
        soak) echo 'write: pse52 soak S N' ;;
        upgrade) echo 'write: pse52 upgrade SCRIPT, or pse52 upgrade < SCRIPT' ;;
        audit) echo 'write: pse52 audit HEAD TRACE' ;;
    esac
}

# A command whose numbers are missing, wrong or too many.
refuse_operands() {
    [ "$#" -gt 1 ] || refuse "$1 needs $(meaning_of "$1"); $(usage_of "$1")"
    is_command "$1" "$2" || { [ "$1" = soak ] && is_number "$2"; } || refuse_number "$@"
    case "$1 $#" in
        'check 4') divided "check $2" "$3" "$4" ;;
        'check 3') refuse "check takes a script and a trace; $(usage_of check)" ;;
        'soak 2') refuse "soak needs two numbers; $(usage_of soak)" ;;
        'soak 3') refuse_number soak "$3" ;;
        'run 3' | 'show 3' | 'detail 3' | 'rta 3') open_input "$3" ;;
    esac
    refuse "$1 has a word too many; $(usage_of "$1")"
}

# A command without a number whose files are missing or too many.
refuse_files() {
    case ${2#-} in *[!0-9]* | '') ;; *) refuse "$1 takes no number; $(usage_of "$1")" ;; esac
    case "$1 $#" in
        'audit 2') refuse "audit takes a head and a trace; $(usage_of audit)" ;;
        'upgrade 2') open_input "$2" ;;
    esac
    refuse "$1 has a word too many; $(usage_of "$1")"
}

# All faults of a script, by the tools beside the program: needs Python alone, and no program.
explain_command() {
    lines=
    count=$#
    while [ "$count" -gt 0 ]; do
        word=$1
        shift
        count=$((count - 1))
        if [ "$word" = --lines ]; then lines=$word; else set -- "$@" "$word"; fi
    done
    [ "$#" -le 1 ] || refuse 'explain takes one script; write: pse52 explain SCRIPT'
    # Python does not start where its standard input is a folder.
    if ! python3 -c 'import sys; sys.exit(sys.version_info < (3, 11))' </dev/null 2>/dev/null; then
        say 'explain needs Python 3.11 or later (python3)'
        exit 70
    fi
    [ "$#" -eq 0 ] || [ "$1" = - ] || open_input "$1"
    if [ -z "$input" ] && [ -t 0 ] && [ -t 2 ]; then
        say "the script is read from this terminal, up to Ctrl-D at a line's beginning; or name a file: pse52 explain FILE"
    fi
    [ -z "$input" ] || exec python3 "$top/tools/explain/main.py" ${lines:+"$lines"} "$input" </dev/null
    [ ! -d /dev/stdin ] || { say 'standard input is a folder, and no text'; exit 4; }
    exec python3 "$top/tools/explain/main.py" ${lines:+"$lines"} -
}
