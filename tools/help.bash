# What ./fork95 adds on a terminal. It is read by that script, and changes no byte of the program's own.

usage() {
    cat <<'END'
Usage:
  fork95 run FILE --harts P --cycles N [--show NAME]   compile and run, input from standard input
  fork95 build FILE -o IMAGE                           compile to an image
  fork95 exec IMAGE --harts P --cycles N               run an image
  fork95 list IMAGE                                    print an image's code
  fork95 elf IMAGE -o FILE                             make an image's ELF file
  fork95 unelf FILE -o IMAGE                           make the image of such a file
  fork95 audit FILE --harts P --cycles N               compile, run, and tell which PRAM the run needed
  fork95 trace FILE --harts P --cycles N               compile, run, and tell who does what when
  fork95 replay FILE TRACE                             check a trace against FILE alone, and print what it prints
  fork95 selftest COUNT                                compile and run a generated text of so many statements
  fork95 locks                                         print the text of the fair lock
  fork95 explain RULE|NAME                             explain a rule (1 to 40) or the name in a report

P is 1 to 1024, N is 0 to 4294967295, COUNT is 1 to 500. Give no input by </dev/null.
The first call proves and builds the program. docs/COMMANDS.md has all options, statuses and reports.
END
}

# The row of the table for a rule's number or a name.
row_of() {
    awk -F '\t' -v key="$1" '$1 == key { print; found = 1 } END { exit !found }' "$here/tools/explain.tsv"
}

# Prints what is broken and what to do.
explain() {
    local key what todo
    IFS=$'\t' read -r key what todo < <(row_of "$1") || return 1
    if [[ $key =~ ^[0-9]+$ ]]; then echo "Rule $key is broken where: $what."; else echo "$key: $what"; fi
    echo "$todo"
}

# The file that the command's words name.
file_of() {
    local word takes=
    if [ "$1" = selftest ] || [ "$1" = locks ]; then return; fi
    shift
    while [ $# -gt 0 ]; do
        word=$1
        shift
        if [ -n "$takes" ]; then takes=; continue; fi
        case $word in
            --) echo "${1-}"; return ;;
            --harts | --cycles | --show | -o) takes=1 ;;
            -) echo - ; return ;;
            -*) ;;
            *) echo "$word"; return ;;
        esac
    done
}

# Prints a line of the source with a caret below a column, which counts bytes.
show_place() {
    local file=$1 line=$2 column=$3 text
    [ -f "$file" ] && text=$(LC_ALL=C sed -n "${line}{p;q}" "$file" | tr -d '\000') && [ -n "$text" ] || return 0
    printf '%5s | %s\n' "$line" "$text"
    printf '      | %s^\n' "$(printf '%s' "$text" | LC_ALL=C cut -b "1-$((column - 1))" 2>/dev/null | LC_ALL=C sed 's/[^\t]/ /g')"
}

# Says more of a word that C has and the language hasn't.
hint_at() {
    local text
    text=$(LC_ALL=C sed -n "${2}{p;q}" "$1" 2>/dev/null | LC_ALL=C cut -b "$3-" | tr -d '\000')
    case $text in
        '#define'*) echo "There is no preprocessor: use a variable for a constant, a function for a macro." ;;
        '#include "'*) echo 'Only #include <fork.h> and #include <io.h> are known.' ;;
        '#'*) echo "There is no preprocessor." ;;
        printf* | pprintf*) echo "Use putint, putchar or puts." ;;
        char* | float* | double* | long* | short*) echo "The types are int and unsigned, of 32 bits." ;;
        int* | unsigned*) echo "A declaration is a statement of its own: none stands inside for or an expression." ;;
        *) ;;
    esac
    if LC_ALL=C grep -q '^[^ -~	]' <<<"$text"; then echo "A byte outside ASCII may stand in comments alone."; fi
}

# Helps with a report of the program: its last line on standard error.
help_with() {
    local report=$1 status=$2 file name line column
    shift 2
    file=$(file_of "$@")
    if [[ $report =~ ^(refused|fault)\ ([0-9]+\ )?([A-Za-z]+)(\ [0-9]+)?\ at\ ([0-9]+):([0-9]+) ]]; then
        name=${BASH_REMATCH[3]} line=${BASH_REMATCH[5]} column=${BASH_REMATCH[6]}
        if [ "$name" = Rule ]; then name=${BASH_REMATCH[4]# }; fi
        show_place "$file" "$line" "$column"
        explain "$name"
        case $name in BadByte | Unexpected | 1) hint_at "$file" "$line" "$column" ;; esac
    elif [[ $report =~ ^refused\ [0-9]+\ ([A-Za-z]+) ]]; then
        explain "${BASH_REMATCH[1]}"
    elif [[ $report =~ ^stopped\ after ]]; then
        explain stopped
    elif [ "$report" = "refused command line" ]; then
        help_with_words "$@"
    elif [ "$status" = 3 ]; then
        if [ "$1" = replay ] && [ -e "$file" ]; then echo "$file, the trace or standard input could not be read."
        elif [ -e "$file" ]; then echo "$file or standard input could not be read."; else echo "There is no file $file."; fi
    elif [ "$status" = 4 ]; then
        echo "A file or an output could not be written."
    elif [ "$status" = 5 ]; then
        echo "There is not enough memory: a run takes 8 MiB, and 128 KiB for each hart."
    fi
}

# Says which word of a refused command line is at fault, where that is plain.
help_with_words() {
    local word
    case ${1-} in
        run | exec | audit | trace)
            for word in --harts --cycles; do
                [[ " $* " == *" $word"[\ =]* ]] || echo "$1 needs $word N."
            done ;;
        build | elf | unelf) [[ " $* " == *" -o"* ]] || echo "$1 needs -o and the name of a file." ;;
        locks) echo "locks takes no further words." ;;
        replay) echo "replay needs a source and a trace, and nothing else." ;;
        selftest) echo "selftest needs a number from 1 to 500, and nothing else." ;;
        list) ;;
        *) echo "${1-} is no command." ;;
    esac
    usage | sed '/^$/,$d'
}

# Tells on standard error how long a run has gone on, after two seconds and then each second, in a line of its own. The
# file $1 says what stands in the terminal's line: nothing, the time, or an open line of the program.
tell_time() {
    SECONDS=0
    sleep 2
    while true; do
        {
            flock 8
            if [ "$(<"$1")" != open ]; then
                printf '\r\033[Kfork95: running for %d s' "$SECONDS" >&2
                echo time >"$1"
            fi
        } 8<"$1"
        sleep 1
    done
}

# Takes the time away again, where it stands.
clear_time() {
    if [ "$(<"$1")" = time ]; then
        printf '\r\033[K' >&2
        : >"$1"
    fi
}

# Passes standard input on as it comes, past the time. What came before Ctrl-C is passed on too.
pass_on() {
    local piece
    trap '' INT
    piece=$(mktemp)
    while dd bs=65536 count=1 of="$piece" status=none && [ -s "$piece" ]; do
        {
            flock 8
            clear_time "$1"
            cat "$piece"
            if [ -n "$(tail -c 1 "$piece" | tr '\0' .)" ]; then echo open >"$1"; else : >"$1"; fi
        } 8<"$1"
    done
    rm -f "$piece"
}

# Runs the program with the words given, its report into the file $1, and tells how long the run goes on.
run_with_time() {
    local report=$1 status=0
    shift
    tell_time "$screen" &
    teller=$!
    if [ -t 1 ]; then
        "$program" "$@" 2>"$report" | pass_on "$screen"
        status=${PIPESTATUS[0]}
    else
        "$program" "$@" 2>"$report" || status=$?
    fi
    { kill "$teller" && wait "$teller"; } 2>/dev/null || true
    teller=
    clear_time "$screen"
    return "$status"
}

# Runs the program with the words given, and helps behind its report where standard error is a terminal.
run_with_help() {
    local report screen teller= status=0 last runs=
    case ${1-} in run | exec | audit | trace) runs=1 ;; esac
    report=$(mktemp)
    screen=$(mktemp)
    trap '[ -z "$teller" ] || kill "$teller" 2>/dev/null; rm -f "$report" "$screen"' EXIT
    if [ -n "$runs" ] && [ ! -t 0 ]; then
        run_with_time "$report" "$@" || status=$?
    else
        if [ -n "$runs" ]; then echo "fork95: reading input numbers; Ctrl-D ends them" >&2; fi
        "$program" "$@" 2>"$report" || status=$?
    fi
    cat "$report" >&2
    last=$(tail -n 1 "$report")
    case $status in
        0 | 8 | 9 | 12) ;;
        *) help_with "$last" "$status" "$@" >&2 ;;
    esac
    exit "$status"
}
