# shellcheck shell=bash
# A refusal in words: the only place that has them. What the number says is a claim; which of the shapes behind a number it may be is advice.

# refusal_in_words TASK FORM NUMBER LINE NAME FILE: the sentences for `c refused NUMBER LINE` about the text of this name on standard input and, for a
# judgement, the file of that name on descriptor 3. FORM is the one as which the text was read, clauses or gates.
refusal_in_words() {
    local task=$1 form=$2 number=$3 line=$4 name=$5 file=$6 all=() at='' place start
    local me=${me-vulzhenn} narrow=''
    place=$name
    # no more than is shown, and of a text that is too long its start
    mapfile -n "$((line > 0 ? line : 1))" all
    start=${all[0]-}
    case $number in
    4 | 7 | 8 | 17 | 18) place=$file ;;
    *) [ "$line" -eq 0 ] || place="$name, line $line" ;;
    esac
    echo "$place: $(cause_in_words "$task" "$number") ($number)"
    if [ "$line" -gt 0 ]; then
        at=${all[line - 1]-}
        show_line
    fi
    advice_for
    [ -z "$narrow" ] || echo "$me narrow may mend it"
}

# cause_in_words TASK NUMBER: what the number says.
cause_in_words() {
    case $1-$2 in
    season-9) echo "the text has over 122,880 bytes" ;;
    season-10) echo "no line of three numbers with one space between two of them, or its line end is missing" ;;
    season-23) echo "there are over 4,096 lines" ;;
    season-24) echo "an answer is above 4" ;;
    season-25) echo "a fee is over 100,000,000 cents" ;;
    *-4) echo "a count of rows is 0 or over 256, or there are no rows of the claim's side" ;;
    *-7) echo "the claim is above 1, or there is none" ;;
    *-8) echo "a row has a bit beyond its unknowns" ;;
    *-9) echo "the text has over 65,536 bytes" ;;
    *-10) echo "no shape that is allowed at this place" ;;
    *-11) echo "a number is out of range" ;;
    *-12) echo "a name is bound twice" ;;
    *-14) echo "too many names or entries, or not as many lines as the p line says" ;;
    *-17) echo "the bit map has bit 5, 6 or 7, so this is no witness file" ;;
    *-18) echo "the file is empty, stops short of its fields, or goes on after them" ;;
    *-19) echo "an input, or the output, is neither bound nor an earlier gate" ;;
    *-20) echo "the gate's name is already used" ;;
    *) echo "the text breaks a rule of its format" ;;
    esac
}

# The line, with what cannot be seen by its name.
show_line() {
    local shown='' i one body=${at%$'\n'} first=0 last
    if [ -z "$at" ]; then
        echo "  $line | <the text has ended>"
        return
    fi
    last=${#body}
    while [ "$last" -gt 0 ] && [ "${body:last-1:1}" = ' ' ]; do last=$((last - 1)); done
    while [ "${body:first:1}" = ' ' ]; do first=$((first + 1)); done
    for ((i = 0; i < ${#body} && i < 100; i++)); do
        one=${body:i:1}
        case $one in
        ' ') if [ "$i" -ge "$first" ] && [ "$i" -lt "$last" ]; then shown+=$one; else shown+='<blank>'; fi ;;
        $'\r') shown+='<CR>' ;;
        $'\t') shown+='<tab>' ;;
        [[:print:]]) shown+=$one ;;
        *)
            printf -v one '<%02X>' "'$one"
            shown+=$one
            ;;
        esac
    done
    [ ${#body} -le 100 ] || shown+=' ..'
    [ "$at" != "$body" ] || shown+='<no line end>'
    echo "  $line | $shown"
}

# A guess at what happened, where there is one. Sets narrow if `vulzhenn narrow` mends such a text.
advice_for() {
    local other=''
    case $number in
    17 | 18)
        IFS= read -r -n 80 other <&3
        if looks_like_text "$other"; then
            echo "it looks like a text: FORMULA comes first, then FILE, which $me witness writes"
        else
            odd_file "$other"
        fi
        ;;
    9) odd_file "$start" || narrow=yes ;;
    10) [ "$task" = season ] || odd_file "$start" || odd_line ;;
    11) [ "$task" = season ] || odd_number ;;
    12) odd_name ;;
    14) odd_count ;;
    esac
}

looks_like_text() { [[ $1 =~ ^(c|p |s cnf) ]]; }

# Bytes that are no text of ours at all.
odd_file() { # START
    local other=''
    case $1 in
    $'\x1f\x8b'*) echo "it is packed by gzip: gunzip it first" && narrow=yes ;;
    BZh[0-9]* | $'\xfd7zXZ'* | $'\x28\xb5\x2f\xfd'* | PK$'\x03\x04'*) echo "it is a packed file: unpack it first" ;;
    $'\xff\xfe'* | $'\xfe\xff'*) echo "it is in UTF-16: save it as plain text" ;;
    $'\xef\xbb\xbf'*) echo "it begins with a byte order mark" && narrow=yes ;;
    '<!'* | '<html'* | '<HTML'* | '<?xml'*) echo "it is a page of HTML, not the text itself" ;;
    $'\x1b'* | $'\x17'*)
        IFS= read -r -n 80 other <&3
        if [ "$task" = judge ] && looks_like_text "$other"; then
            echo "the two seem to be swapped: FORMULA comes first, then FILE"
        else
            echo "it looks like a witness file, which is judged beside its formula: $me judge FORMULA FILE"
        fi
        ;;
    *) [[ ${1%$'\n'} =~ ^[A-Za-z0-9+/]{40,}=*$ ]] && echo "it looks like base64: decode it first" ;;
    esac
} 3<&3 2>/dev/null

# The number of the p line, or 0.
p_line() {
    local i
    for ((i = 0; i < ${#all[@]}; i++)); do
        [[ ${all[i]} != c* ]] || continue
        [[ ${all[i]} != p* ]] || echo $((i + 1))
        return
    done
}

# The shapes behind 10.
odd_line() {
    local body=${at%$'\n'} before
    before=$(p_line)
    if [ -z "$at" ]; then
        echo "the text ends without a p line, which is p cnf V C, or p gate V G O of a gate list"
    elif [[ $body == *$'\r'* ]]; then
        echo "its lines seem to end in CR LF, where LF alone is wanted" && narrow=yes
    elif [[ $body == *$'\t'* ]]; then
        echo "a tab stands where only spaces may" && narrow=yes
    elif [[ $body == ' '* || $body == *' ' ]] && [ -n "${body// /}" ]; then
        echo "a blank stands at an end of the line, where none may" && narrow=yes
    elif [ -z "${body// /}" ]; then
        echo "no line may be empty" && narrow=yes
    elif [ "${before:-$line}" -lt "$line" ]; then
        odd_later_line
    elif [[ $body =~ ^p\ +gate ]] && [ "$form" = clauses ]; then
        if [ "$task" = trim ]; then echo "this is a gate list, which is not trimmed"; else echo "this is a gate list: $me gates and $me study read it"; fi
    elif [[ $body =~ ^p\ +cnf ]] && [ "$form" = gates ]; then
        echo "this is a formula in clauses, and a gate list is wanted here"
    elif [[ $body == p* ]]; then
        echo "the p line is p cnf V C, or p gate V G O of a gate list, with numbers of at most five digits"
        [[ ! $body =~ ^p\ +cnf\ +\+?[0-9]+\ +\+?[0-9]+$ ]] || narrow=yes
    elif [ "$at" = "$body" ]; then
        echo "its line end is missing" && narrow=yes
    else
        echo "before the p line (p cnf V C, or p gate V G O of a gate list) only comments may stand, lines that begin with c"
    fi
}

# A line behind the p line.
odd_later_line() {
    local body=${at%$'\n'} words=() one
    read -ra words <<<"$body"
    narrow=yes
    if [ "${body:0:1}" = c ]; then
        echo "a comment may stand before the p line only"
    elif [ "${body:0:1}" = p ]; then
        echo "this is a second p line" && narrow=''
    elif [[ $body =~ ^[ae]\ +0$ ]]; then
        echo "a prefix line names at least one unknown"
    elif [[ $body =~ ^[ae]\  ]] && behind_clauses; then
        echo "a prefix line may stand before the clauses only" && narrow=''
    elif [ "$form" = gates ] && [[ $body =~ ^[\&\|^]\  ]]; then
        echo "a gate line is &, | or ^, the gate's name, its inputs (of ^ two), and 0" && narrow=''
    elif [ "$form" = clauses ] && [[ $body =~ ^[\&\|^]\  ]]; then
        echo "gates belong into a gate list, whose p line is p gate V G O" && narrow=''
    elif [[ $body =~ [^0-9\ ae+-] || $body =~ .[ae] ]]; then
        echo "something other than numbers stands here" && narrow=''
    elif [ "${words[-1]}" != 0 ]; then
        echo "a line ends in 0, and a clause stands in one line"
    elif [[ " ${words[*]:0:${#words[@]}-1} " == *' 0 '* ]]; then
        echo "0 ends a line: one clause a line"
    elif [ "$at" = "$body" ]; then
        echo "its line end is missing"
    elif [ "$form" = gates ]; then
        echo "behind the prefix of a gate list come its gates" && narrow=''
    else
        for one in "${words[@]}"; do
            [[ $one =~ ^([ae]|0|-?[1-9][0-9]{0,4})$ ]] || { echo "'$one' is no number of at most five digits without a leading zero"; return; }
        done
        [[ ! $body =~ ^[ae]\ .*- ]] || { echo "a prefix line has names without a sign" && narrow=''; }
    fi
}

# Whether a clause or a gate stands before the line.
behind_clauses() {
    local i
    for ((i = $(p_line); i < line - 1; i++)); do
        [[ ${all[i]} == [ae]\ * ]] || return 0
    done
    return 1
}

# The numbers behind 11.
odd_number() {
    local words=() one most
    read -ra words <<<"$at"
    if [ "${words[0]-}" = p ]; then
        if [ "${words[2]-0}" -gt 32767 ]; then
            echo "V is ${words[2]}, and at most 32,767" && narrow=yes
        elif [ "$form" = gates ]; then
            echo "G is at most 128, and O from 1 to 32,767, perhaps with a minus sign"
        else
            echo "C is ${words[3]-}, and at most 2,048"
        fi
        return
    fi
    most=${all[$(p_line) - 1]}
    read -r _ _ most _ <<<"$most"
    for one in "${words[@]}"; do
        [[ $one =~ ^-?[0-9]+$ ]] || continue
        if [ "${one#-}" -gt "$most" ] && { [ "$form" = clauses ] || [[ $at == [ae]\ * ]]; }; then
            echo "the name ${one#-} is above V, which is $most" && narrow=yes
            return
        fi
    done
    echo "a name goes from 1 to 32,767"
}

# The name behind 12.
odd_name() {
    local i one seen=' '
    for ((i = $(p_line); i < line; i++)); do
        for one in ${all[i]}; do
            [[ $one == [1-9]* ]] || continue
            if [ "$i" -eq "$((line - 1))" ] && [[ $seen == *" $one "* ]]; then
                echo "it is the name $one"
                return
            fi
            seen+="$one "
        done
    done
}

# The counts behind 14.
odd_count() {
    local i words=() lines=0 what=clauses most
    [ "$form" = clauses ] || what=gates
    read -ra words <<<"${all[$(p_line) - 1]}"
    most=${words[3]-0}
    for ((i = $(p_line); i < ${#all[@]}; i++)); do
        [[ ${all[i]} == [ae]\ * ]] || lines=$((lines + 1))
    done
    if [ -z "$at" ]; then
        echo "the p line says $most $what, and the text ends after $lines"
        [ "$form" = gates ] || narrow=yes
    elif [ "$lines" -gt "$most" ]; then
        echo "the p line says $most $what, and here is number $lines"
        [ "$form" = gates ] || narrow=yes
    elif [ "$form" = gates ]; then
        echo "a gate list has at most 128 names bound or in gates, and makes at most 2,048 clauses and 8,192 entries"
    else
        echo "at most 128 names are bound or stand in clauses, and at most 8,192 entries stand in clauses, their zeros counted"
    fi
}
