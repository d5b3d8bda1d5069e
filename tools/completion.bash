# shellcheck shell=bash
# Completion in bash for vulzhenn, its words, and each word's options, as the command itself lists them.
_vulzhenn() {
    local command=${COMP_WORDS[0]} current=${COMP_WORDS[COMP_CWORD]} before=${COMP_WORDS[COMP_CWORD - 1]} words word=''
    COMPREPLY=()
    words=$("${command%-*}" help 2>/dev/null | sed -n 's/^  \([a-z]\{1,\}\) .*/\1/p')
    case ${command##*/} in
    vulzhenn-*) word=${command##*vulzhenn-} ;;
    *) [[ $'\n'$words$'\n' != *$'\n'"${COMP_WORDS[1]}"$'\n'* ]] || [ "$COMP_CWORD" -le 1 ] || word=${COMP_WORDS[1]} ;;
    esac
    command=${command%-*}
    case $before in
    -o | --output)
        compopt -o default
        return
        ;;
    --timeout) return ;;
    --claim)
        mapfile -t COMPREPLY < <(compgen -W "0 1" -- "$current")
        return
        ;;
    esac
    if [[ $current == -* ]]; then
        words=$("$command" ${word:+"$word"} --help 2>/dev/null | grep -oE -- '(^|[ [])--?[a-z]+' | tr -d ' [' | sort -u)
        mapfile -t COMPREPLY < <(compgen -W "$words" -- "$current")
    elif [ "$before" = help ] || { [ "$COMP_CWORD" -eq 1 ] && [ -z "$word" ]; }; then
        mapfile -t COMPREPLY < <(compgen -W "$words help" -- "$current")
        [ "$before" = help ] || compopt -o default
    else
        compopt -o default
    fi
}
complete -F _vulzhenn vulzhenn
for _vulzhenn_word in $(vulzhenn help 2>/dev/null | sed -n 's/^  \([a-z]\{1,\}\) .*/\1/p'); do complete -F _vulzhenn "vulzhenn-$_vulzhenn_word"; done
unset _vulzhenn_word
