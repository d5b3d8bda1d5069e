# shellcheck shell=bash disable=SC2034,SC2064,SC2094,SC2154
# What the words of `vulzhenn` share. A word is a file commands/WORD, sourced with the words that follow it. It hands a program one text, or a text and a
# file, prints what that prints, and ends with a status that tells what was printed. It sets
#     usage       what stands behind the word in a call
#     about       what --help says of it, with its options and exit statuses
#     flags       its own options that stand alone, valued those that take a value: names without dashes, each between spaces
#     operands    how many texts and files it takes: at most 1 (as if not set), or 2
#     binary      set where it writes bytes that no terminal can show
# defines
#     status_of LINE      sets status by the first line that the program printed, on standard error if it printed none on standard output; leaves 2 for a
#                         line that it never prints
# and calls
#     read_words WORDS..  sets given (texts and files), asked_NAME for each of its options, form, out and timeout; answers --help and --version
#     answer_by TASK      does it: program_of says by which program
#
# The exit statuses. A word that decides ends as solvers do: 10 true, 20 false, 0 undecided, and 1 for a text that is refused. Every other one ends
# with 0 if what was asked for is there (the file is accepted, or written), 1 if it is not (not borne out; nothing to write), and 3 if the text or the
# file is refused. 2 is trouble, of all: wrong use, input that cannot be read, a build that failed, output that could not be written. 124: the time is over.

# No program here takes a text or a file of so many bytes, so the rest of a longer one need not be read for it to be refused.
MOST_BYTES=4194304
made=$root/target/command

# program_of TASK FORM: the only place that knows which program does what, and how it is told.
#     crate       the program
#     front       bytes that it reads before the text, as printf takes them
#     beside      bytes that it reads from descriptor 3, where that is not the second file
# tasks are all of them.
tasks=(decide study witness study-witness judge trim account season)
program_of() {
    front='' beside=''
    case $1 in
    decide) crate=vulzhenn ;;
    study | witness | judge) crate=vulzhenn_$1 ;;
    study-witness) crate=vulzhenn_study_witness ;;
    account) crate=vulzhenn_account ;;
    trim) crate=vulzhenn_trim ;;
    season) crate=sheet ;;
    esac
    case $1/$2 in
    decide/gates | study/gates | witness/gates | study-witness/gates) crate=${crate}_gates ;;
    judge/clauses) front='\000' ;;
    judge/gates) front='\001' ;;
    account/gates) beside=g ;;
    trim/gates) form=clauses ;; # as which it is refused
    esac
    program=$made/$crate
}

# An installed copy has no sources: its programs passed their check when it was made.
if [ ! -e "$root/crates.txt" ]; then
    installed=yes me=vulzhenn first_call=''
    trouble='2 wrong use, unreadable input, or output that could not be written; 124 the time of --timeout is over'
    closing='The formats and all numbers: man 5 vulzhenn.'
else
    installed='' me=./vulzhenn
    first_call='The first call proves and builds the program, which takes some minutes.
'
    trouble='2 wrong use, unreadable input, a failed build, or output that could not be written; 124 the time of --timeout is over'
    closing='The formats and all numbers: README.md.'
fi
name=vulzhenn called=$me
[ "$word" = decide ] || name="vulzhenn $word" called="$me $word"
common_options='-o FILE writes to FILE, the whole of it or nothing. --timeout S gives up after S seconds. -- ends the options. -h and --help print this,
--version the version.'
either_form='The text is a formula in narrowed QDIMACS, or a gate list, told by its p line; with --gates it has to be a gate list.'

say() { printf '%s: %s\n' "$name" "$*" >&2; }

# A sentence on standard error, and the status for trouble.
fail() {
    say "$@"
    exit 2
}

misused() { fail "$*; usage: $called $usage"; }

print_help() {
    printf '%s\n' "usage: $called $usage" "$about" "$common_options" "$closing"
}

# Of a checkout, also one of somebody else's; an unpacked archive knows of none, whatever repository it lies in.
commit_of_sources() {
    { [ -e "$root/.git" ] && git -c safe.directory="$root" -C "$root" describe --always --dirty --exclude '*' 2>/dev/null; } || echo "of no known commit"
}

# The version and the commit.
version_of_this() {
    if [ -n "$installed" ]; then
        echo "$(<"$root/version")"
    else
        echo "$(<"$root/VERSION") ($(commit_of_sources))"
    fi
}

print_version() {
    local kit
    echo "vulzhenn $(version_of_this)"
    [ -z "$installed" ] || return 0
    kit=$(rt version 2>/dev/null) || kit="none on PATH"
    echo "toolchain: $kit"
}

# print WHAT..: what --help and --version print, unless it cannot be written.
print() {
    "$@" 2>/dev/null || fail "standard output could not be written"
    exit 0
}

read_words() {
    given=() form='' out='' timeout=''
    { : 3>&1; } 2>/dev/null || fail "standard output is closed"
    local option value
    while [ $# -gt 0 ]; do
        option=$1
        shift
        case $option in
        --)
            given+=("$@")
            break
            ;;
        - | '') given+=("$option") && continue ;;
        -h | --help) print print_help ;;
        --version) print print_version ;;
        -o | --output | --timeout)
            [ $# -gt 0 ] || misused "$option wants a value"
            value=$1
            shift
            ;;
        -o*) value=${option#-o} option=-o ;;
        --output=* | --timeout=*) value=${option#*=} option=${option%%=*} ;;
        --*)
            value=${option#*=} option=${option%%=*}
            case " ${flags-} |${valued-}" in
            *" ${option#--} "*'|'*)
                [ "$option" = "--$value" ] || [ "$value" = "$option" ] || misused "$option takes no value"
                printf -v "asked_${option#--}" yes
                ;;
            *'|'*" ${option#--} "*)
                if [ "$value" = "$option" ]; then
                    [ $# -gt 0 ] || misused "$option wants a value"
                    value=$1
                    shift
                fi
                printf -v "asked_${option#--}" %s "$value"
                ;;
            *) misused "there is no option $option" ;;
            esac
            continue
            ;;
        -*) misused "there is no option $option" ;;
        *) given+=("$option") && continue ;;
        esac
        case $option in
        -o | --output)
            [ -n "$value" ] || misused "-o wants a name"
            out=$value
            ;;
        --timeout)
            [[ $value =~ ^[0-9]{1,7}(\.[0-9]{1,3})?$ && $value =~ [1-9] ]] || misused "--timeout wants seconds, and '$value' is none"
            timeout=$value
            ;;
        esac
    done
    [ -z "${asked_gates-}" ] || form=gates
}

# A sentence for a name that is no file's.
can_open() { # FILE
    [ ! -d "$1" ] || fail "$1 is a directory"
    [ -e "$1" ] || fail "there is no file $1"
}

# Opens what was named: the text on standard input, the second file on descriptor 8. Sets input and file, their names.
open_inputs() {
    input="standard input" file="standard input"
    if [ "${operands-1}" = 2 ]; then
        [ ${#given[@]} -eq 2 ] || misused "a formula and a file are wanted"
        [ "${given[*]}" != "- -" ] || misused "only one of the two can be standard input"
        [ "${given[1]}" != - ] || exec 8<&0
    elif [ ${#given[@]} -gt 1 ]; then
        [ "${given[0]}" != - ] || misused "one text at a time"
        misused "one file at a time"
    fi
    if [ ${#given[@]} -gt 0 ] && [ "${given[0]}" != - ]; then
        input=${given[0]}
        can_open "$input"
        { exec <"$input"; } 2>/dev/null || fail "cannot open $input"
    fi
    if [ ${#given[@]} -eq 2 ] && [ "${given[1]}" != - ]; then
        file=${given[1]}
        can_open "$file"
        { exec 8<"$file"; } 2>/dev/null || fail "cannot open $file"
    fi
    { : 3<&0; } 2>/dev/null || fail "standard input is closed"
    [ "${operands-1}" != 2 ] || { : 3<&8; } 2>/dev/null || fail "standard input is closed"
    can_write
    [ "$input" != "standard input" ] || [ ! -t 0 ] || say "the text is read from the terminal; Ctrl-D ends it, and $called --help says more"
}

# Whether what is written has somewhere to go: said before anything is worked out.
can_write() {
    local one
    if [ -z "$out" ]; then
        [ -z "${binary-}" ] || [ ! -t 1 ] || fail "what it writes is binary, and standard output is a terminal; name a file with -o"
        return
    fi
    [ ! -d "$out" ] || fail "$out is a directory"
    for one in "${given[@]}"; do
        ! [ "$one" -ef "$out" ] || [ ! -f "$out" ] || fail "what it writes would take the place of $one"
    done
}

# Keeps the text, and the second file, since what cannot be read to its end is not handed on: the program would take what there is for the whole. What is
# kept lasts as long as it is open, so that no file is left however this call ends.
keep_inputs() {
    local room said mask
    room=${TMPDIR:-/tmp}/vulzhenn-$$-${SRANDOM-$RANDOM$RANDOM}
    mask=$(umask)
    umask 077
    set -C
    {
        exec {text}>"$room.t" {look}<"$room.t" {read_text}<"$room.t" {refused_text}<"$room.t" {file_kept}>"$room.f" {read_file}<"$room.f" {refused_file}<"$room.f"
        exec {lines}>"$room.l" {first_line}<"$room.l" {all_lines}<"$room.l" {errors}>"$room.e" {first_error}<"$room.e" {all_errors}<"$room.e"
    } 2>|/dev/null || fail "cannot make a temporary file in ${TMPDIR:-/tmp}"
    set +C
    umask "$mask"
    rm -f "$room".[tfle]
    said=$(head -c "$MOST_BYTES" 2>&1 >&"$text") || fail "cannot read $input to its end (${said#head: })"
    [ "${operands-1}" != 2 ] || said=$(head -c "$MOST_BYTES" <&8 2>&1 >&"$file_kept") || fail "cannot read $file to its end (${said#head: })"
}

# The form of the text, where none was asked for: its first line that is no comment says so.
find_form() {
    local line=''
    form=clauses
    while IFS= read -r line <&"$look" && [ "${line:0:1}" = c ]; do :; done
    [[ ! $line =~ ^p\ +gate(\ |$) ]] || form=gates
}

# answer_by TASK [FORM]: asks the program for what was named, prints its lines and ends with their status; with FORM no other one is taken.
answer_by() {
    form=${2-$form}
    open_inputs
    if [ -n "$form" ]; then # else the text has to be read first
        program_of "$1" "$form"
        make_current
    fi
    keep_inputs
    if [ -z "$form" ]; then
        find_form
        program_of "$1" "$form"
        make_current
    fi
    ask_program
    local line said='' printed=()
    mapfile -t -n 9 printed <&"$first_line"
    IFS= read -r said <&"$first_error"
    line=${printed[0]:-$said}
    if [ -n "$timeout" ] && [ "$ended" -eq 124 ]; then
        say "no answer within $timeout seconds"
        exit 124
    fi
    status=2
    status_of "$line"
    [ "$status" -ne 2 ] || fail "the program ended with status $ended and without an answer"
    [ -z "$said" ] || cat <&"$all_errors" >&2
    print_lines
    case $line in 'c refused '*) say_refusal "$1" "$line" ;; esac
    ! declare -F afterwards >/dev/null || afterwards "$line"
    exit "$status"
}

# A program that was built from other sources than are there now is never run.
make_current() {
    if [ -n "$installed" ]; then
        [ -x "$program" ] || fail "$program is missing: the installation is not whole"
    else
        declare -F is_current >/dev/null || . "$root/commands/build.sh"
        is_current || build
    fi
}

# Runs the program, which ends with this call, however that ends.
ask_program() {
    local signal watch='' with=()
    [ -z "$beside" ] || printf %s "$beside" >&"$file_kept"
    ! hash setpriv 2>/dev/null || with=(setpriv --pdeathsig KILL)
    [ -z "$timeout" ] || with+=(timeout --foreground "$timeout" "${with[@]}")
    if [ "${operands-1}" = 2 ] || [ -n "$beside" ]; then exec 3<&"$read_file"; else exec 3<&-; fi
    if [ -n "$front" ]; then
        { printf '%b' "$front" && cat <&"$read_text"; } | "${with[@]}" "$program" >&"$lines" 2>&"$errors" 8<&- &
    else
        "${with[@]}" "$program" <&"$read_text" >&"$lines" 2>&"$errors" 8<&- &
    fi
    running=$!
    for signal in HUP INT TERM; do trap "stop_program $signal" "$signal"; done
    if [ -t 2 ]; then
        show_life &
        watch=$!
        disown "$watch"
    fi
    wait "$running" 2>/dev/null
    ended=$?
    trap - HUP INT TERM
    [ -z "$watch" ] || end_life "$watch"
}

stop_program() { # SIGNAL
    trap - HUP INT TERM
    kill -KILL "$running" 2>/dev/null
    wait "$running" 2>/dev/null
    [ ! -t 2 ] || echo >&2
    kill "-$1" "$$"
}

# On a terminal, from the fifth second on: how long it has been running.
show_life() {
    local never
    trap - HUP INT TERM
    exec {never}<> <(:)
    SECONDS=0
    read -rt 5 -u "$never"
    while kill -0 "$$" 2>/dev/null; do
        printf '\r%s: running for %d s; Ctrl-C ends it' "$name" "$SECONDS" >&2
        read -rt 1 -u "$never"
    done
}

end_life() { # PROCESS
    kill "$1" 2>/dev/null
    [ "$SECONDS" -lt 4 ] || printf '\r\033[K' >&2
}

# What the program printed, to where it is wanted. Few lines go out without another process.
print_lines() {
    if [ -n "$out" ]; then
        [ ${#printed[@]} -eq 0 ] || put_whole "$out" <&"$all_lines" || fail "$out could not be written"
    elif [ -z "${binary-}" ] && [ ${#printed[@]} -lt 9 ]; then
        trap '' PIPE
        [ ${#printed[@]} -eq 0 ] || printf '%s\n' "${printed[@]}" 2>/dev/null || fail "standard output could not be written"
    else
        cat <&"$all_lines" 2>/dev/null || fail "standard output could not be written"
    fi
}

# put_whole FILE: standard input becomes the file of that name: an older one stays until the new one is whole, and what is half done is removed.
put_whole() {
    local to part signal
    if [ -e "$1" ] && [ ! -f "$1" ]; then # a device, or a pipe
        cat 2>/dev/null >"$1"
        return
    fi
    to=$(readlink -f -- "$1") || to=$1
    part=$(mktemp "${to%/*}/.vulzhenn-XXXXXX" 2>/dev/null) || return
    for signal in HUP INT TERM; do trap "rm -f '${part//\'/\'\\\'\'}'; trap - $signal; kill -$signal $$" "$signal"; done
    if cat 2>/dev/null >"$part" && { if [ -e "$to" ]; then chmod --reference="$to" "$part"; else chmod "=rw" "$part"; fi; } && mv -f "$part" "$to"; then
        trap - HUP INT TERM
    else
        rm -f "$part"
        return 1
    fi
} 2>/dev/null

# do_in_python FILE WORDS..: what a word leaves to commands/FILE, with the text on standard input; ends with its status.
do_in_python() {
    local with=()
    hash python3 2>/dev/null || fail "there is no python3 on PATH"
    [ -n "$timeout" ] || exec python3 -B "$root/commands/$1" "${@:2}"
    ! hash setpriv 2>/dev/null || with=(setpriv --pdeathsig KILL)
    "${with[@]}" timeout --foreground "$timeout" "${with[@]}" python3 -B "$root/commands/$1" "${@:2}"
    status=$?
    [ "$status" -ne 124 ] || say "no answer within $timeout seconds"
    exit "$status"
}

# say_refusal TASK LINE: the line `c refused N L` in words.
say_refusal() {
    . "$root/commands/refusal.sh"
    local number line said
    read -r _ _ number line <<<"$2"
    refusal_in_words "$1" "$form" "$number" "$line" "$input" "$file" <&"$refused_text" 3<&"$refused_file" | while IFS= read -r said; do say "$said"; done
}

# The status for 01's lines, of a word that decides.
status_of_answer() { # LINE
    case $1 in
    's cnf 1 '*) status=10 ;;
    's cnf 0 '*) status=20 ;;
    's cnf -1 '*) status=0 ;;
    'c refused '*) status=1 ;;
    esac
}

# Where one run ends undecided, another may have room.
say_study() { # LINE
    [[ $1 != 's cnf -1 '* ]] || say "undecided by this run; $me study${given[0]:+ $(printf %q "${given[0]}")} may decide it"
}
when_decided="Exit status: 10 true, 20 false, 0 undecided; 1 the text is refused;
$trouble."

# The status of a word that writes a witness file. A file begins with its map: 27 (escape) where the rows are existential, 23 where they are universal.
status_of_witness() { # LINE
    case $1 in
    $'\033'* | $'\027'*) status=0 ;;
    's cnf -1 '*) status=1 ;;
    'c refused '*) status=3 ;;
    esac
}
when_written="Exit status: 0 the file is written; 1 undecided, so there is none; 3 the text is refused;
$trouble."
