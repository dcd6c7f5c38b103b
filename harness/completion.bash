# Completion for bash: the tool itself is asked for its commands, their options and the forms of show --as.

_moonbleat() {
    local word=${COMP_WORDS[COMP_CWORD]} command=${COMP_WORDS[1]} words
    if [ "$COMP_CWORD" -eq 1 ] || { [ "$COMP_CWORD" -eq 2 ] && [ "$command" = help ]; }; then
        words=$("${COMP_WORDS[0]}" help | sed -n 's/^  moonbleat \([a-z-]*\).*/\1/p')
    elif [ "${COMP_WORDS[COMP_CWORD - 1]}" = --as ]; then
        words=$("${COMP_WORDS[0]}" help show | sed -n 's/.*take the file for a \(.*\), whatever.*/\1/p' | tr -d ,)
        words=${words/ or / }
    elif [ "${word#-}" != "$word" ]; then
        words="$("${COMP_WORDS[0]}" help "$command" | head -n 1 | grep -o -e ' \[*-[a-z0-9-]*' | tr -d ' [') --help"
    else
        mapfile -t COMPREPLY < <(compgen -f -- "$word")
        return
    fi
    mapfile -t COMPREPLY < <(compgen -W "$words" -- "$word")
}

complete -o filenames -F _moonbleat moonbleat
